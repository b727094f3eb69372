//! The samples of the repository: each `samples/NAME.sheet` is printed as `samples/NAME.txt`, by both
//! desks. `page` is the page's own sheet.

use std::fs;
use std::path::{Path, PathBuf};

use harness::compare::Comparison;
use harness::desks::{Plain, Proved};
use harness::fields::page_sheet;
use harness::page::print_sheet;
use harness::random::Random;
use harness::settings;
use harness::sheets::cut;

fn samples() -> PathBuf {
    Path::new(env!("CARGO_MANIFEST_DIR")).join("../samples")
}

fn sheets() -> Vec<PathBuf> {
    fs::read_dir(samples())
        .expect("the folder samples")
        .map(|entry| entry.expect("an entry of samples").path())
        .filter(|path| path.extension().is_some_and(|kind| kind == "sheet"))
        .collect()
}

#[test]
fn the_samples_are_printed_as_they_stand() {
    let mut random = Random::new(settings::seed());
    let mut comparison = Comparison::new(&Proved, &Plain);
    for path in sheets() {
        let sheet = fs::read(&path).expect("a sheet");
        let expected = fs::read(path.with_extension("txt")).expect("the text beside the sheet");
        let text = comparison
            .print_sheet(&sheet, &mut random)
            .expect("the desks agree");
        let name = path.display();
        assert!(text == expected, "{name}:\n{}", text.escape_ascii());
    }
}

#[test]
fn the_page_sample_is_the_text_of_the_page() {
    assert!(sheets().contains(&samples().join("page.sheet")));
    let expected = fs::read_to_string(samples().join("page.txt")).expect("page.txt");
    assert_eq!(print_sheet(&page_sheet()), expected);
}

/// Cases of kind 1 and of kind 2 in one sheet, whose text was worked out by hand as the others were.
#[test]
fn a_sample_holds_cases_of_both_kinds() {
    let holds_both = |path: PathBuf| {
        let sheet = fs::read(path).expect("a sheet");
        let (cases, rest) = cut(&sheet);
        let of = |bytes| cases.iter().any(|case| case.len() == bytes);
        rest.is_empty() && of(88) && of(92)
    };
    assert!(sheets().into_iter().any(holds_both));
}
