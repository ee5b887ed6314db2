//! The crate against the programs `report` and `species`, on all samples and on damaged ones.
mod support;
use evaporation::{check, explain, report, species_of, text, words_of, Composition, Refusal, SPECIES};
use std::fs;
use support::{damaged, printed, samples, top, Sample};

/// What the program `report` prints, made of the words.
fn lines(sheet: &[u8]) -> String {
    let report = match report(sheet) {
        Ok(report) => report,
        Err(Refusal { number, place }) => return format!("refused {} at {place}\n", number.code()),
    };
    assert_eq!(report.words().len(), words_of(report.row_count()));
    let mut names: Vec<String> = (1..=report.row_count()).map(|row| format!("row {row}")).collect();
    names.extend(["cars", "light", "two", "all", "total"].map(String::from));
    let mut made = format!("EVP {} rows {}\n", sheet[3], report.row_count());
    for (name, words) in names.iter().zip(report.words().chunks(6)) {
        let words: Vec<String> = words.iter().map(u64::to_string).collect();
        made += &format!("{name} {}\n", words.join(" "));
    }
    made
}

fn species_lines(sheet: &[u8]) -> String {
    let Composition { total, milligrams } = match species_of(sheet) {
        Ok(composition) => composition,
        Err(Refusal { number, place }) => return format!("refused {} at {place}\n", number.code()),
    };
    let mut made = format!("EVP {} total {total}\n", sheet[3]);
    for (name, mass) in SPECIES.iter().zip(milligrams) {
        made += &format!("{name} {mass}\n");
    }
    made
}

fn expect_programs(Sample { name, sheet }: &Sample) {
    let report_printed = printed("report", sheet);
    assert_eq!(text(sheet), report_printed, "{name}");
    assert_eq!(lines(sheet), report_printed, "{name}");
    assert_eq!(species_lines(sheet), printed("species", sheet), "{name}");
}

#[test]
fn samples_as_the_programs_print_them() {
    for sample in samples() {
        expect_programs(&sample);
        let stored = top().join("samples").join(&sample.name).with_extension("report");
        assert_eq!(text(&sample.sheet), fs::read_to_string(stored).unwrap(), "{}", sample.name);
        assert_eq!(check(&sample.sheet), Ok(()));
        assert_eq!(explain(&sample.sheet), None);
    }
}

#[test]
fn damaged_samples_as_the_programs_print_them() {
    let mut refused = 0;
    for sample in damaged(24) {
        expect_programs(&sample);
        let finding = explain(&sample.sheet);
        assert_eq!(check(&sample.sheet).err(), finding.map(|finding| finding.refusal()), "{}", sample.name);
        refused += usize::from(finding.is_some());
    }
    assert!(refused >= 100, "{refused} of the damaged samples are refused");
}
