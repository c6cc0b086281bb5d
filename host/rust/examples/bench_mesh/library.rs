//! The calls as the library has them, proved.

use crate::calls::{Answer, Call, Refusal};
use urdinhosa::c::{
    urdinhosa_across, urdinhosa_coarsen, urdinhosa_fresh, urdinhosa_refine, urdinhosa_run, urdinhosa_sound,
};

/// Whether it was made.
pub fn fresh(slots: &mut [u64], solid: u64) -> bool {
    // SAFETY: pointer and length are those of a slice.
    unsafe { urdinhosa_fresh(slots.as_mut_ptr(), slots.len(), solid) == 0 }
}

#[inline(never)]
pub fn answer(slots: &mut [u64], call: Call) -> Answer {
    match call {
        // SAFETY: pointer and length are those of a slice.
        Call::Sound => Answer::Sound(unsafe { urdinhosa_sound(slots.as_ptr(), slots.len()) }),
        Call::Refine { leaf } => {
            let mut blocker = 0;
            // SAFETY: pointer and length are those of a slice, and the answer goes to a variable.
            let number = unsafe { urdinhosa_refine(slots.as_mut_ptr(), slots.len(), leaf, &mut blocker) };
            answer_or_refusal(Answer::Changed, Refusal { number, blocker })
        }
        Call::Coarsen { cell } => {
            let mut blocker = 0;
            // SAFETY: pointer and length are those of a slice, and the answer goes to a variable.
            let number = unsafe { urdinhosa_coarsen(slots.as_mut_ptr(), slots.len(), cell, &mut blocker) };
            answer_or_refusal(Answer::Changed, Refusal { number, blocker })
        }
        Call::Across { leaf, direction } => across(slots, leaf, direction),
        Call::Run { cell } => {
            let (mut start, mut count) = (0, 0);
            // SAFETY: pointer and length are those of a slice, and the answers go to variables.
            let number = unsafe { urdinhosa_run(slots.as_ptr(), slots.len(), cell, &mut start, &mut count) };
            answer_or_refusal(Answer::Run { start, count }, Refusal { number, blocker: 0 })
        }
    }
}

fn across(slots: &[u64], leaf: u64, direction: u64) -> Answer {
    let (mut level, mut first, mut second) = (0, 0, 0);
    // SAFETY: pointer and length are those of a slice, and the answers go to variables.
    let number =
        unsafe { urdinhosa_across(slots.as_ptr(), slots.len(), leaf, direction, &mut level, &mut first, &mut second) };
    let met = match level {
        -1 => Answer::Larger(first),
        0 => Answer::Equal(first),
        _ => Answer::Smaller(first, second),
    };
    answer_or_refusal(met, Refusal { number, blocker: 0 })
}

fn answer_or_refusal(answer: Answer, refusal: Refusal) -> Answer {
    if refusal.number == 0 {
        answer
    } else {
        Answer::Refused(refusal)
    }
}
