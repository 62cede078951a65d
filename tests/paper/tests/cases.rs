//! 01's cases, W-201's, W-203's, W-204's, W-206's, W-211's, W-212's, W-214's and those of the readings, run on the
//! paper and, with it, on the library.

use heskavern_paper::cases;
use heskavern_paper::{Calls, Paper};

/// Every case holds of this program; the first that doesn't is named.
fn all_hold(calls: &mut dyn Calls) {
    for (name, case) in cases::all() {
        println!("{name}");
        case(calls);
    }
}

#[test]
fn the_paper_keeps_the_cases() {
    all_hold(&mut Paper::default());
}

#[cfg(feature = "library")]
#[test]
fn the_library_keeps_the_cases() {
    all_hold(&mut heskavern_paper::library::Library);
}
