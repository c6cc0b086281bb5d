//! The listing program `meshlist`, run on standard input: all that it prints, compared with the model of the rules.
//!
//! The program is the file that MESHLIST names, or else the repository's own target/native/meshlist. The random tests
//! run some thousands of inputs; MESHLIST_TIMES=100 makes them a hundred times as many.

mod model;

use model::codes::{self, Cell, FAULTY};
use model::listing::{self, MOST_BYTES, UNREADABLE};
use model::mesh;
use model::random::Random;
use model::solids::{self, ICOSAHEDRON, SOLIDS};
use model::tally::Tally;
use std::collections::VecDeque;
use std::io::{ErrorKind, Write};
use std::os::fd::OwnedFd;
use std::os::unix::net::UnixDatagram;
use std::path::{Path, PathBuf};
use std::process::{Command, Stdio};
use std::time::Duration;
use std::{env, fs, thread};

/// The most orders that fit into the bytes of one input, each of 19 bytes after the 2 of the solid's line.
const MOST_ORDERS: usize = 215;

// ---------------------------------------------------------------------------------------------------------------------
// Comparing program and model on one input

fn repository() -> PathBuf {
    Path::new(env!("CARGO_MANIFEST_DIR")).join("../..")
}

fn program() -> PathBuf {
    env::var_os("MESHLIST").map_or_else(|| repository().join("target/native/meshlist"), PathBuf::from)
}

/// What the program prints when its input comes in pieces, with a pause between them.
fn print_for_pieces<'a>(pieces: impl IntoIterator<Item = &'a [u8]>, pause: Duration) -> Vec<u8> {
    let piped = Stdio::piped;
    let started = Command::new(program()).stdin(piped()).stdout(piped()).stderr(piped()).spawn();
    let mut running = started.unwrap_or_else(|error| panic!("{} does not start: {}", program().display(), error));
    let mut stdin = running.stdin.take().expect("a piped input");
    for piece in pieces {
        match stdin.write_all(piece) {
            // the program has seen that there are too many bytes
            Err(error) if error.kind() == ErrorKind::BrokenPipe => break,
            written => written.expect("the program reads its input"),
        }
        thread::sleep(pause);
    }
    drop(stdin);
    let output = running.wait_with_output().expect("the program ends");
    assert!(output.status.success() && output.stderr.is_empty(), "{:?}", output);
    output.stdout
}

fn print_for(input: &[u8]) -> Vec<u8> {
    print_for_pieces([input], Duration::ZERO)
}

fn assert_same(input: &[u8], printed: &[u8], expected: &str) {
    assert!(
        printed == expected.as_bytes(),
        "input: {}\nprinted:\n{}\nexpected:\n{}",
        input.escape_ascii(),
        String::from_utf8_lossy(printed),
        expected
    );
}

/// Compares what the program and the model print, and answers it.
fn compare(input: &[u8]) -> String {
    let expected = listing::list(input);
    assert_same(input, &print_for(input), &expected);
    expected
}

fn assert_prints(input: impl AsRef<[u8]>, expected: &str) {
    let printed = compare(input.as_ref());
    assert_same(input.as_ref(), printed.as_bytes(), expected);
}

/// The numbers of the refusals that were printed.
fn refusals_in(printed: &str) -> Vec<u64> {
    let numbers = printed.lines().filter_map(|line| line.strip_prefix("refused "));
    numbers.map(|number| number.parse().expect("a number")).collect()
}

/// The leaves of the list that was printed, each with the level differences of its sides.
fn list_in(printed: &str) -> Vec<&str> {
    printed.lines().filter(|line| !line.starts_with("refused ") && *line != UNREADABLE.trim_end()).collect()
}

// ---------------------------------------------------------------------------------------------------------------------
// Inputs

fn refine(leaf: u64) -> String {
    format!("R {:016x}\n", leaf)
}

fn coarsen(cell: u64) -> String {
    format!("C {:016x}\n", cell)
}

const FACE_0: u64 = 0x4000_0000_0000_0000;
const FACE_1: u64 = 0x4200_0000_0000_0000;
const FACES: [u64; 4] = [FACE_0, FACE_1, 0x4400_0000_0000_0000, 0x4600_0000_0000_0000];
const CHILD_00_OF_FACE_0: u64 = 0x4000_0000_0000_0001;
const DEEPEST_CELL: u64 = 0x4000_0000_0000_001a;
const FACE_OF_OCTAHEDRON: u64 = 0x8000_0000_0000_0000;

/// An order that is refused by 1.
const REFUSED: &str = "R 0000000000000000\n";

/// Lines that are no solid number, without their newline.
const NO_SOLID: [&[u8]; 28] = [
    b"",
    b" ",
    b" 1",
    b"1 ",
    b"1\r",
    b"\r",
    b"\t1",
    b"1\t",
    b"12",
    b"01",
    b"10",
    b"+1",
    b"-1",
    b"1.",
    b"0x1",
    b"a",
    b"R",
    b"R 4000000000000000",
    b"/",
    b":",
    b"\0",
    b"1\0",
    b"\x001",
    b"\x01",
    b"\x81",
    b"\xb1",
    b"\xff",
    b"\xef\xbb\xbf1",
];

/// Lines that are no order, without their newline. Some are as long as an order.
const NO_ORDER: [&[u8]; 53] = [
    b"",
    b" ",
    b"R",
    b"R ",
    b"C ",
    b"1",
    b"refused 1",
    b"# refine face 0",
    b"R 400000000000000",
    b"R 40000000000000000",
    b"C 400000000000000",
    b"C 40000000000000000",
    b"R 40000000000000000000000000000000",
    b"R  4000000000000000",
    b"R  400000000000000",
    b"R 4000000000000000 ",
    b"R 400000000000000 ",
    b" R 4000000000000000",
    b" R 400000000000000",
    b"R 4000000000000000\r",
    b"R 400000000000000\r",
    b"R4000000000000000",
    b"R40000000000000000",
    b"R\t4000000000000000",
    b"R_4000000000000000",
    b"RR4000000000000000",
    b"R 4000000 00000000",
    b"R 0x40000000000000",
    b"R +400000000000000",
    b"R -400000000000000",
    b"R 400000000000000A",
    b"R 400000000000000F",
    b"R C000000000000000",
    b"R 400000000000000g",
    b"R g000000000000000",
    b"R 400000000000000/",
    b"R 400000000000000:",
    b"R 400000000000000@",
    b"R 400000000000000`",
    b"r 4000000000000000",
    b"c 4000000000000000",
    b"S 4000000000000000",
    b"D 4000000000000000",
    b"X 4000000000000000",
    b"4 4000000000000000",
    b"R 4000000000000000R 4200000000000000",
    // as many bytes as an order, in two lines
    b"R 40000000\n0000000",
    b"\nR 400000000000000",
    b"\0",
    b"R\x004000000000000000",
    b"R 400000000000000\0",
    b"R 400000000000000\xff",
    b"\xd2\xa04000000000000000",
];

// ---------------------------------------------------------------------------------------------------------------------
// What the document prints

#[test]
fn the_example_of_document_01() {
    let listed = "\
4000000000000001 -1 -1 0
4080000000000001 -1 0 -1
4100000000000001 0 0 0
4180000000000001 0 -1 -1
4200000000000000 1 0 0
4400000000000000 0 0 1
4600000000000000 0 1 0
";
    assert_prints("1\nR 4000000000000000\n", listed);
}

#[test]
fn a_solid_alone_lists_its_faces() {
    assert_prints(
        "1\n",
        "4000000000000000 0 0 0\n4200000000000000 0 0 0\n4400000000000000 0 0 0\n4600000000000000 0 0 0\n",
    );
    for solid in SOLIDS {
        let printed = compare(format!("{}\n", solid).as_bytes());
        assert_eq!(list_in(&printed).len() as u64, solids::number_of_faces(solid));
    }
}

#[test]
fn each_refusal_that_a_line_can_get_is_printed_and_the_run_goes_on() {
    let refined_face_0 = refine(FACE_0);
    let bench_case_12: String = FACES.into_iter().chain([CHILD_00_OF_FACE_0]).map(refine).collect();
    let refused = [
        (1, "", refine(0)),
        (2, "", refine(0x4800_0000_0000_0000)),
        (3, "", refine(0x4000_0000_0000_001b)),
        (4, "", refine(0x4000_0000_0000_0020)),
        (12, "", refine(DEEPEST_CELL)),
        (12, "", refine(FACE_OF_OCTAHEDRON)),
        (12, &refined_face_0, refine(FACE_0)),
        (14, &refined_face_0, refine(CHILD_00_OF_FACE_0)),
        (1, "", coarsen(0)),
        (2, "", coarsen(0x4800_0000_0000_0000)),
        (3, "", coarsen(0x4000_0000_0000_001b)),
        (4, "", coarsen(0x4000_0000_0000_0020)),
        (7, "", coarsen(DEEPEST_CELL)),
        (13, "", coarsen(FACE_0)),
        (13, "", coarsen(FACE_OF_OCTAHEDRON)),
        (14, &bench_case_12, coarsen(FACE_1)),
    ];
    for (number, before, order) in refused {
        let list = compare(format!("1\n{}", before).as_bytes());
        assert_prints(format!("1\n{}{}", before, order), &format!("refused {}\n{}", number, list));
    }
}

#[test]
fn a_leaf_of_depth_26_is_not_refined() {
    // down the middle nothing is in the way: a child 10 has its siblings on all sides
    let cell = |depth| codes::code_of(&Cell { solid: 2, face: 6, digits: vec![2; depth] });
    let orders: String = (0..=26).map(|depth| refine(cell(depth))).collect();
    let printed = compare(format!("2\n{}", orders).as_bytes());
    assert_eq!(refusals_in(&printed), [7]);
    assert!(list_in(&printed).contains(&format!("{:016x} 0 0 0", cell(26)).as_str()), "{}", printed);
}

#[test]
fn each_fault_of_a_code_is_told_in_its_sequence() {
    for (code, number) in FAULTY {
        for order in [refine(code), coarsen(code)] {
            assert_eq!(refusals_in(&compare(format!("3\n{}", order).as_bytes())), [number]);
        }
    }
}

// ---------------------------------------------------------------------------------------------------------------------
// Where the document could be read in two ways

#[test]
fn no_line_at_all_is_unreadable() {
    assert_prints("", UNREADABLE);
}

#[test]
fn bytes_after_the_last_newline_are_a_line_of_another_form() {
    for input in ["1", "0", "1\nR 4000000000000000", "1\nR 4000000000000000\nC", "1\n "] {
        assert_prints(input, UNREADABLE);
    }
}

#[test]
fn each_other_form_of_the_solids_line_is_unreadable() {
    for line in NO_SOLID {
        assert_prints([line, b"\n"].concat(), UNREADABLE);
        assert_prints([line, b"\n", refine(FACE_0).as_bytes()].concat(), UNREADABLE);
    }
}

#[test]
fn each_other_form_of_an_order_is_unreadable_and_ends_the_run() {
    for line in NO_ORDER {
        assert_prints([b"1\n", line, b"\n"].concat(), UNREADABLE);
        assert_prints([b"1\n", line, b"\n", REFUSED.as_bytes()].concat(), UNREADABLE);
        let done = refine(FACE_0);
        assert_prints([b"1\n", done.as_bytes(), line, b"\n", done.as_bytes()].concat(), UNREADABLE);
    }
}

#[test]
fn refusals_printed_before_an_unreadable_line_stay() {
    assert_prints(format!("1\n{}X\n", REFUSED), "refused 1\nunreadable\n");
    for line in NO_ORDER {
        let before = [refine(FACE_0), refine(CHILD_00_OF_FACE_0), REFUSED.to_string()].concat();
        let input = [b"1\n", before.as_bytes(), line, b"\n", REFUSED.as_bytes()].concat();
        assert_prints(input, "refused 14\nrefused 1\nunreadable\n");
    }
}

#[test]
fn a_refused_solid_ends_the_run_whatever_follows() {
    for solid in [0, 4, 5, 6, 7, 8, 9] {
        for after in ["", "R 4000000000000000\n", "X\n", "\n", "\0", "1\n", "R 4000000000000000"] {
            assert_prints(format!("{}\n{}", solid, after), "refused 1\n");
        }
    }
}

#[test]
fn a_blocked_order_is_refused_without_the_blocking_leaf() {
    let printed = compare(format!("1\n{}{}", refine(FACE_0), refine(CHILD_00_OF_FACE_0)).as_bytes());
    assert_eq!(printed.lines().next(), Some("refused 14"));
}

#[test]
fn each_printed_line_ends_in_a_newline() {
    for (input, last) in [("", "unreadable\n"), ("0\n", "refused 1\n"), ("1\n", "4600000000000000 0 0 0\n")] {
        assert!(compare(input.as_bytes()).ends_with(last));
    }
}

#[test]
fn an_input_of_4096_bytes_is_read_and_a_longer_one_is_not() {
    let with_bytes_after = |start: &str, length| [start.as_bytes(), &vec![b'x'; length - start.len()]].concat();
    assert_prints(with_bytes_after("0\n", MOST_BYTES), "refused 1\n");
    assert_prints(with_bytes_after("0\n", MOST_BYTES + 1), UNREADABLE);

    let refusals = "refused 1\n".repeat(MOST_ORDERS);
    let orders = format!("1\n{}", REFUSED.repeat(MOST_ORDERS));
    assert_prints(&orders, &(refusals.clone() + &compare(b"1\n")));
    assert_prints(with_bytes_after(&orders, MOST_BYTES), &(refusals + UNREADABLE));
    assert_prints(with_bytes_after(&orders, MOST_BYTES + 1), UNREADABLE);
    assert_prints(orders + REFUSED, UNREADABLE);
    for length in [MOST_BYTES + 2, 2 * MOST_BYTES, 1 << 17] {
        assert_prints(with_bytes_after("1\n", length), UNREADABLE);
    }
}

#[test]
fn the_whole_input_is_read_before_the_first_line_is_done() {
    let pause = Duration::from_millis(5);
    let orders = format!("1\n{}{}", refine(FACE_0), REFUSED);
    for length in [1, 2, 19, 21] {
        let printed = print_for_pieces(orders.as_bytes().chunks(length), pause);
        assert_same(orders.as_bytes(), &printed, &listing::list(orders.as_bytes()));
    }
    let long = format!("1\n{}", REFUSED.repeat(MOST_ORDERS + 1));
    assert_same(long.as_bytes(), &print_for_pieces(long.as_bytes().chunks(1_000), pause), UNREADABLE);
}

// ---------------------------------------------------------------------------------------------------------------------
// Every byte, and random inputs

#[test]
fn every_byte_in_the_place_of_a_good_one_is_answered_as_by_the_model() {
    let good = [b"1\n", refine(FACE_0).as_bytes()].concat();
    for place in 0..good.len() {
        for byte in 0..=255 {
            let mut input = good.clone();
            input[place] = byte;
            compare(&input);
        }
    }
}

fn times() -> u64 {
    env::var("MESHLIST_TIMES").map_or(1, |times| times.parse().expect("MESHLIST_TIMES is a number"))
}

/// A solid and so many orders. The mesh is done beside, so that most of them are about leaves that are there.
fn random_input(random: &mut Random, orders: u64) -> Vec<u8> {
    let solid = random.one_of(&SOLIDS);
    let mut slots = vec![0; 20 + 3 * MOST_ORDERS];
    urdinhosa::fresh(&mut slots, solid).expect("there is room for every solid");
    let mut input = format!("{}\n", solid);
    for _ in 0..orders {
        let leaves = mesh::leaves_in(&slots);
        // the first leaves are met more often, and so become deeper
        let some = 1 + random.below(leaves.len() as u64) as usize;
        let code = random.code_for(&leaves[..some]);
        let parent = codes::parent(code).unwrap_or(code);
        // what is refused changes nothing
        let (order, _) = match random.below(8) {
            0 => (coarsen(code), urdinhosa::coarsen(&mut slots, code)),
            1 => (coarsen(parent), urdinhosa::coarsen(&mut slots, parent)),
            _ => (refine(code), urdinhosa::refine(&mut slots, code)),
        };
        input += &order;
    }
    input.into_bytes()
}

/// The input after something was done to one place of it.
fn damaged(random: &mut Random, mut input: Vec<u8>) -> Vec<u8> {
    let place = random.below(input.len() as u64) as usize;
    let other = random.below(input.len() as u64) as usize;
    let byte = random.one_of(b"RCrc 0123456789abcdefABCDEFg\n\n\n\r\t\0\x80\xff");
    match random.below(6) {
        0 => drop(input.remove(place)),
        1 => input.insert(place, byte),
        2 => input.truncate(place),
        3 => input.swap(place, other),
        4 => input[place] ^= 1 << random.below(8),
        _ => input[place] = byte,
    }
    input
}

#[test]
fn random_orders_are_answered_as_by_the_model() {
    let mut random = Random::with_seed(1);
    let numbers = (0..2_000 * times()).flat_map(|_| {
        let orders = random.below(40);
        refusals_in(&compare(&random_input(&mut random, orders)))
    });
    Tally::of(numbers).assert_each_at_least(50, [1, 2, 3, 4, 7, 12, 13, 14]);
}

#[test]
fn random_orders_with_one_damage_are_answered_as_by_the_model() {
    let mut random = Random::with_seed(2);
    let (mut unreadable, mut listed) = (0, 0);
    for _ in 0..3_000 * times() {
        let orders = random.below(12);
        let good = random_input(&mut random, orders);
        let printed = compare(&damaged(&mut random, good));
        match list_in(&printed).len() {
            0 => unreadable += 1,
            _ => listed += 1,
        }
    }
    assert!(unreadable >= 500 && listed >= 500, "{} unreadable, {} listed", unreadable, listed);
}

#[test]
fn as_many_random_orders_as_there_is_room_for_are_answered_as_by_the_model() {
    let mut random = Random::with_seed(3);
    for _ in 0..20 * times() {
        compare(&random_input(&mut random, MOST_ORDERS as u64));
    }
}

/// The orders that leave the longest list.
fn longest_list() -> String {
    // the largest leaves first, so that none is blocked
    let mut leaves: VecDeque<u64> = mesh::leaves_in(&mesh::fresh(&[0; 20], ICOSAHEDRON).expect("a mesh")).into();
    let mut input = format!("{}\n", ICOSAHEDRON);
    for _ in 0..MOST_ORDERS {
        let leaf = leaves.pop_front().expect("a leaf");
        input += &refine(leaf);
        leaves.extend(mesh::children_of(leaf));
    }
    input
}

#[test]
fn the_longest_list_is_as_by_the_model() {
    let printed = compare(longest_list().as_bytes());
    assert!(refusals_in(&printed).is_empty());
    assert_eq!(list_in(&printed).len(), 20 + 3 * MOST_ORDERS);
}

/// A reader that closes early must not end the program with an error while a page fits into the pipe.
#[test]
fn the_page_is_written_in_one_write() {
    // each write to a datagram socket is a datagram of its own
    let (ours, theirs) = UnixDatagram::pair().expect("two sockets");
    let input = longest_list();
    let started = Command::new(program()).stdin(Stdio::piped()).stdout(OwnedFd::from(theirs)).spawn();
    let mut running = started.unwrap_or_else(|error| panic!("{} does not start: {}", program().display(), error));
    let mut stdin = running.stdin.take().expect("a piped input");
    stdin.write_all(input.as_bytes()).expect("the program reads its input");
    drop(stdin);
    let mut page = vec![0; 1 << 18];
    ours.set_read_timeout(Some(Duration::from_secs(20))).expect("a time to wait");
    let length = ours.recv(&mut page).expect("what is written first");
    assert_same(input.as_bytes(), &page[..length], &listing::list(input.as_bytes()));
    ours.set_read_timeout(Some(Duration::from_millis(200))).expect("a time to wait");
    let more = ours.recv(&mut page).map_err(|error| error.kind());
    assert_eq!(more, Err(ErrorKind::WouldBlock), "something is written after it");
    assert!(running.wait().expect("the program ends").success());
    ours.set_nonblocking(true).expect("a socket that does not wait");
    let more = ours.recv(&mut page).map_err(|error| error.kind());
    assert_eq!(more, Err(ErrorKind::WouldBlock), "something is written at the end");
}

// ---------------------------------------------------------------------------------------------------------------------
// The inputs that the repository shows

#[test]
fn each_example_is_listed_as_by_the_model() {
    let folder = fs::read_dir(repository().join("examples")).expect("the folder of examples");
    let files = folder.map(|entry| entry.expect("a file").path());
    let examples: Vec<PathBuf> = files.filter(|file| file.extension().map_or(false, |kind| kind == "mesh")).collect();
    assert!(examples.len() >= 4, "{:?}", examples);
    for example in examples {
        let printed = compare(&fs::read(&example).expect("an example"));
        assert!(!list_in(&printed).is_empty(), "{} lists nothing", example.display());
    }
}

#[test]
fn the_readme_of_the_examples_shows_what_is_printed() {
    let file = |name| fs::read_to_string(repository().join("examples").join(name)).expect(name);
    let printed = compare(file("blocked.mesh").as_bytes());
    assert!(file("README.md").contains(&printed), "{}", printed);
}
