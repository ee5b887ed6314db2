//! The crate by itself, with nothing of the repository around it: a report, a refusal, a ledger. The package has this
//! test, and not the others, which compare the crate with the header, the programs and the package for Python.
use evaporation::*;

const SHEET: &[u8] = include_bytes!("../samples/table-3-5-day.evp");

#[test]
fn a_first_report() {
    let report = report(SHEET).expect("the sheet is accepted");
    assert_eq!((report.total().low, report.total().high), (44_140_776, 44_140_793));
    assert_eq!(report.row_count(), 3);
    assert!(text(SHEET).ends_with("total 44140776 44140793\n"), "{}", text(SHEET));
}

#[test]
fn a_refusal_in_words() {
    let cut = &SHEET[..SHEET.len() - 1];
    let refusal = report(cut).expect_err("a cut sheet is refused");
    assert_eq!((refusal.number, refusal.place), (Number::Length, 0));
    assert!(!refusal.text().is_empty());
    let finding = explain(cut).expect("a finding");
    assert_eq!((finding.value, finding.least, finding.most), (183, 184, 184));
}

#[test]
fn a_ledger_is_as_a_fresh_report() {
    let mut ledger = Ledger::open(SHEET).expect("the sheet is accepted");
    ledger.arrive(0, 7).expect("there is room");
    assert_eq!(ledger.report().words(), report(ledger.sheet()).expect("it is accepted still").words());
    ledger.depart(0, 7).expect("they are there");
    assert_eq!(ledger.sheet(), SHEET);
}

#[test]
fn the_library_is_of_the_version_of_the_crate() {
    let (major, minor, patch) = library_version();
    assert_eq!(format!("{major}.{minor}.{patch}"), env!("CARGO_PKG_VERSION"));
}
