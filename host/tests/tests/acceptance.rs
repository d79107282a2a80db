//! All acceptance cases, and the build description's listing.

use nt2_tests::acceptance::{FILES, folder, listing, run_file};
use nt2_tests::implementation::{Implementation, Reference};

fn all_cases<I: Implementation>() {
    for (file, cases) in FILES {
        let run = run_file::<I>(&folder(), file).expect("a file of cases");
        assert_eq!(run.cases, cases, "{file}");
        assert!(run.failures.is_empty(), "{:#?}", run.failures);
    }
}

fn listing_example<I: Implementation>() {
    let input = [
        0x01, 0x02, 0x00, 0x10, 0x00, 0x01, 0x61, 0x00, 0xFF, 0xFF, 0x00, 0x00, 0x01, 0x11, 0x00,
        0x00, 0x00, 0x02, 0x00, 0x11, 0x00, 0x00, 0x00, 0x02, 0x01, 0x00,
    ];
    let expected = "offset taken answer to sent\n0 3 0 0001 1\n3 10 0 0001 10\n13 6 0 0000 6\n\
                    19 6 16 0000 0\n25 1 16 0000 0\nend 26 entries 1\n";
    assert_eq!(listing::<I>(&input), expected);
}

#[test]
fn reference() {
    all_cases::<Reference>();
    listing_example::<Reference>();
}

#[cfg(feature = "library")]
#[test]
fn library() {
    all_cases::<nt2_tests::implementation::Library>();
    listing_example::<nt2_tests::implementation::Library>();
}
