//! The open vectors, made by an independent model of the papers: each case by the library and by the reference.

mod answers;
mod faults;

use answers::answer;
use reference::calls::{Calls, PLAIN, PROVED};
use reference::cases::cases;

/// The requests that have landed: a case that holds until one of them is left out.
const LANDED: [u16; 6] = [1, 2, 3, 5, 7, 8];

/// Runs all cases of a request's file that hold; gives how many they are.
fn run(text: &str, request: u16, calls: &Calls) -> usize {
    let mut all = cases(text);
    all.retain(|case| case.until.is_none_or(|request| !LANDED.contains(&request)));
    let mut names: Vec<&str> = all.iter().map(|case| case.name).collect();
    names.sort();
    assert!(names.windows(2).all(|pair| pair[0] != pair[1]), "a name twice");
    let mut wrong = vec![];
    for case in &all {
        let given = answer(case.clone(), request, calls);
        if given != case.answer {
            wrong.push(format!("{}: {given:.200}, not {:.200}", case.name, case.answer));
        }
    }
    let some = wrong[..wrong.len().min(20)].join("\n");
    assert!(wrong.is_empty(), "{} wrong answers\n{some}", wrong.len());
    all.len()
}

/// The file of a request, with its number of cases.
macro_rules! vectors {
    ($name:ident, $request:literal, $file:literal, $cases:literal) => {
        mod $name {
            use super::{run, PLAIN, PROVED};

            const TEXT: &str = include_str!($file);

            #[test]
            fn by_the_library() {
                assert_eq!(run(TEXT, $request, &PROVED), $cases);
            }

            #[test]
            fn by_the_reference() {
                assert_eq!(run(TEXT, $request, &PLAIN), $cases);
            }
        }
    };
}

vectors!(r01, 1, "r01.txt", 505);
vectors!(r02, 2, "r02.txt", 528);
vectors!(r03, 3, "r03.txt", 577);
vectors!(r07, 7, "r07.txt", 637);
vectors!(r08, 8, "r08.txt", 518);
