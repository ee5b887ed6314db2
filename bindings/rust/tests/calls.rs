//! The crate itself: names, numbers, refusals and what a refused call leaves.
mod support;
use evaporation::*;
use std::fs;
use support::{halves, sample, top};

/// The header's text, without its comments.
fn header() -> String {
    let folder = top();
    let text = fs::read_to_string(folder.join("include/evaporation.h")).expect("the header is there");
    let mut plain = String::new();
    let mut rest = text.as_str();
    while let Some((before, comment)) = rest.split_once("/*") {
        plain += before;
        rest = comment.split_once("*/").expect("a comment ends").1;
    }
    plain + rest
}

/// EVP_REFUSED_VAPOUR_PRESSURE for VapourPressure.
fn header_name(number: Number) -> String {
    let mut name = String::from("EVP_REFUSED");
    for letter in format!("{number:?}").chars() {
        if letter.is_uppercase() {
            name.push('_');
        }
        name.push(letter.to_ascii_uppercase());
    }
    name
}

#[test]
fn numbers_are_those_of_the_header() {
    let header = header();
    let body = header.split_once("enum evp_number {").expect("the enum").1.split_once('}').unwrap().0;
    let names: Vec<&str> = body.split(',').map(str::trim).filter(|line| !line.is_empty()).collect();
    assert_eq!(names[0], "EVP_ACCEPTED = 0");
    let ours: Vec<String> =
        Number::ALL.iter().map(|&number| format!("{} = {}", header_name(number), number.code())).collect();
    assert_eq!(ours, names[1..]);
    assert_eq!(Number::of(0), None);
    for code in 1..100 {
        let found = Number::of(code).unwrap();
        assert_eq!(found.code(), code);
        assert_eq!(found == Number::Other(code), !Number::ALL.contains(&found), "{code}");
    }
}

#[test]
fn the_sample_of_the_crate_is_that_of_the_repository() {
    assert_eq!(include_bytes!("../samples/table-3-5-day.evp"), &sample("table-3-5-day")[..]);
}

/// What a function of the header returns for the names of its cases.
fn header_cases(header: &str, function: &str) -> Vec<(String, String)> {
    let body = header.split_once(&format!("{function}(uint64_t number")).expect("the function").1;
    let body = body.split_once("\n}").unwrap().0;
    let mut found = Vec::new();
    for part in body.split(';').filter(|part| part.contains("return")) {
        let (cases, text) = part.split_once("return").unwrap();
        let text: String = text.split('"').skip(1).step_by(2).collect();
        for case in cases.split("case ").skip(1) {
            found.push((case.split_once(':').unwrap().0.to_string(), text.clone()));
        }
    }
    found
}

#[test]
fn texts_are_those_of_the_header() {
    let header = header();
    let (texts, places) = (header_cases(&header, "evp_number_text"), header_cases(&header, "evp_place_text"));
    for &number in Number::ALL {
        let name = header_name(number);
        let of = |cases: &[(String, String)]| cases.iter().find(|case| case.0 == name).map(|case| case.1.clone());
        assert_eq!(of(&texts).as_deref(), Some(number.text()), "{name}");
        let part = Refusal { number, place: 0 }.part().to_string();
        assert_eq!(of(&places).unwrap_or("call".into()), part, "{name}");
    }
}

#[test]
fn the_record_of_a_refusal_is_counted_from_one() {
    let mut sheet = sample("odometer");
    let (season, row) = (1160 + 8, 1160 + 2 * 8 + 3 * 24);
    sheet[row] = 77;
    assert_eq!(check(&sheet).unwrap_err().record(&sheet), Some(4));
    sheet[season] = 255;
    sheet[season + 1] = 255;
    assert_eq!(check(&sheet).unwrap_err().record(&sheet), Some(2));
    sheet[0] = 0;
    assert_eq!(check(&sheet).unwrap_err().record(&sheet), None);
    let sheet = sample("table-3-5-day");
    let unowned = SharedLedger::open(&sheet, &[1, 9, 1]).unwrap_err();
    assert_eq!((unowned.part(), unowned.record(&sheet)), (Part::Row, Some(2)));
}

#[test]
fn limits_and_names_are_those_of_the_header() {
    let header = header();
    for (name, value) in [
        ("EVP_SHEET_BYTES", SHEET_BYTES as u64),
        ("EVP_WORDS", REPORT_WORDS as u64),
        ("EVP_TEXT_BYTES", TEXT_BYTES as u64),
        ("EVP_STACK_BYTES", STACK_BYTES as u64),
        ("EVP_FACTOR_WORDS", factor_words_of(12, 1000) as u64),
        ("EVP_SEASON_WORDS", season_words_of(12, 1000) as u64),
        ("EVP_SPECIES_COUNT", SPECIES.len() as u64),
    ] {
        assert!(header.contains(&format!("#define {name} {value}\n")), "{name}");
    }
    assert!(header.contains(&format!("UINT64_C({MASS_LIMIT})")));
    for name in SPECIES {
        assert!(header.contains(&format!("\"{name}\"")), "{name}");
    }
}

#[test]
fn a_refusal_is_told_in_words() {
    let mut sheet = sample("table-3-5-day");
    let row = 104 + 8;
    sheet[row + 7] = 255;
    let refusal = report(&sheet).unwrap_err();
    assert_eq!((refusal.number, refusal.place), (Number::Tank, row as u64));
    assert_eq!((refusal.part(), refusal.record(&sheet)), (Part::Row, Some(1)));
    assert_eq!(refusal.to_string(), "refused 17 at 112: the tank is above 150.0 l");
    let finding = explain(&sheet).unwrap();
    assert_eq!((finding.at, finding.bytes, finding.most), (row as u64 + 6, 2, 1500));
    assert_eq!(check(b""), Err(Refusal { number: Number::HeadShort, place: 0 }));
}

#[test]
fn too_short_a_buffer_keeps_what_it_had() {
    let sheet = sample("table-3-5-day");
    let mut words = [7u64; 43];
    assert_eq!(report_into(&sheet, &mut words), Err(Refusal { number: Number::Room, place: 0 }));
    assert!(words.iter().all(|&word| word == 7));
    let mut words = [7u64; 45];
    assert_eq!(report_into(&sheet, &mut words), Ok(44));
    assert_eq!(words[44], 7);
    let mut text = [b'U'; 20];
    let written = text_into(&sheet, &mut words, &mut text);
    assert!(written.bytes > 20 && written.refused.is_none() && text == [b'U'; 20]);
    let refused = Some(Refusal { number: Number::Room, place: 0 });
    assert_eq!(text_into(&sheet, &mut [], &mut text), TextWritten { bytes: 16, refused });
    assert_eq!(&text[..17], b"refused 22 at 0\nU");
}

#[test]
fn a_sheet_is_checked_without_a_report() {
    let mut sheet = sample("odometer");
    assert_eq!((check(&sheet), report_words(&sheet)), (Ok(()), words_of(10)));
    sheet[1160] = 255;
    sheet[1161] = 255;
    let refusal = Refusal { number: Number::Days, place: 1160 };
    assert_eq!((check(&sheet), report_words(&sheet)), (Err(refusal), 0));
    assert_eq!(species_of(&sheet), Err(refusal));
}

#[test]
fn the_species_of_a_sheet_are_those_of_its_total() {
    let sheet = sample("region");
    let total = report(&sheet).unwrap().total().high;
    assert_eq!(species_of(&sheet), Ok(Composition { total, milligrams: species(total) }));
    assert_eq!(species(total).iter().sum::<u64>(), total);
}

#[test]
fn the_library_is_of_this_version() {
    let (major, minor, patch) = library_version();
    assert_eq!(format!("{major}.{minor}.{patch}"), env!("CARGO_PKG_VERSION"));
}

#[test]
fn what_the_sheet_does_not_have_is_absent() {
    let sheet = sample("table-3-5-day");
    assert_eq!(factor(&sheet, 0, 3, Factor::Diurnal).unwrap_err().number, Number::Absent);
    assert_eq!(factor(&sheet, 1, 0, Factor::Diurnal).unwrap_err().number, Number::Absent);
    assert_eq!(factor(&sheet, 0, 0, Factor::Diurnal), Ok(Band { low: 3_875_007, high: 3_875_009 }));
    assert_eq!(report(&sheet).unwrap().row(3), None);
}

#[test]
fn all_factors_are_those_of_the_factor_call() {
    let sheet = sample("odometer");
    let all = factors(&sheet).unwrap();
    assert_eq!(all.words().len(), factor_words_of(all.season_count(), all.row_count()));
    for season in 0..all.season_count() {
        for row in 0..all.row_count() {
            let one = Factor::ALL.map(|one| factor(&sheet, season as u64, row as u64, one).unwrap());
            assert_eq!(all.row(season, row), Some(one));
            assert_eq!(row_factors(&sheet, season as u64, row as u64), Ok(one));
        }
    }
    assert_eq!((all.row(all.season_count(), 0), all.row(0, all.row_count())), (None, None));
    let absent = Refusal { number: Number::Absent, place: 0 };
    assert_eq!(row_factors(&sheet, 0, all.row_count() as u64), Err(absent));
    let (mut words, room) = (vec![7; all.words().len() - 1], Refusal { number: Number::Room, place: 0 });
    assert_eq!(factors_into(&sheet, &mut words), Err(room));
    assert!(words.iter().all(|&word| word == 7));
}

#[test]
fn the_year_is_within_its_seasons() {
    let sheet = sample("odometer");
    let (year, seasons) = (report(&sheet).unwrap(), report_seasons(&sheet).unwrap());
    assert_eq!(seasons.len(), usize::from(sheet[5]));
    for (i, &word) in year.words().iter().enumerate() {
        let sum: u64 = seasons.iter().map(|season| season.words()[i]).sum();
        assert!(if i % 2 == 0 { sum <= word } else { word <= sum }, "word {i}: {word} and {sum}");
    }
    let sheet = sample("table-3-5-day");
    assert_eq!(report_seasons(&sheet), Ok(vec![report(&sheet).unwrap()]));
    let (mut words, room) = (vec![7; season_words_of(1, 3) - 1], Refusal { number: Number::Room, place: 0 });
    assert_eq!(report_seasons_into(&sheet, &mut words), Err(room));
    assert!(words.iter().all(|&word| word == 7));
}

#[test]
fn cells_add_up() {
    let most = Cell::Exact((MASS_LIMIT - 1) as f64);
    assert_eq!(add_cells(most, Cell::Exact(1.0)), Ok(Cell::Exact(MASS_LIMIT as f64)));
    assert_eq!(add_cells(most, Cell::Exact(2.0)).unwrap_err().number, Number::Cell);
    assert_eq!(add_cells(Cell::Empty, Cell::Empty), Ok(Cell::Empty));
    assert_eq!(add_cells(Cell::Empty, Cell::Band(0.0, 7.0)), Ok(Cell::Band(0.0, 7.0)));
    for wrong in [Cell::Exact(0.0), Cell::Exact(0.5), Cell::Band(7.0, 7.0), Cell::Exact(f64::NAN)] {
        assert_eq!(add_cells(wrong, Cell::Empty).unwrap_err().number, Number::Cell);
    }
    let masses = report(&sample("table-3-5-day")).unwrap().row(0).unwrap();
    let travel = Travel {
        town: false,
        urban_mileage: 1,
        rural_mileage: 0,
        highway_mileage: 1,
        rural_speed: 1,
        highway_speed: 1,
    };
    assert_eq!(cells_of_row(masses, travel).unwrap_err().number, Number::Travel);
}

#[test]
fn a_ledger_comes_back_to_where_it_was() {
    let sheet = sample("odometer");
    let mut ledger = Ledger::open(&sheet).unwrap();
    let before = ledger.clone();
    ledger.arrive(2, 1_000).unwrap();
    assert_ne!(ledger.report(), before.report());
    assert_eq!(ledger.depart(2, 20_000_000).unwrap_err().number, Number::Count);
    ledger.depart(2, 1_000).unwrap();
    assert_eq!(ledger, before);
}

#[test]
fn a_shared_ledger_tells_each_their_own() {
    let sheet = sample("table-3-5-day");
    let mut shared = SharedLedger::open(&sheet, &[1, 2, 1]).unwrap();
    assert_eq!(SharedLedger::open(&sheet, &[1, 2]).unwrap_err().number, Number::Share);
    assert_eq!(shared.row(Who::Participant(2), 0).unwrap_err().number, Number::Right);
    assert_eq!(shared.row(Who::Participant(0), 0).unwrap_err().number, Number::Right);
    assert_eq!(shared.totals(Who::Participant(0)).unwrap_err().number, Number::Right);
    assert_eq!(shared.arrive(Who::Marker, 0, 1).unwrap_err().number, Number::Right);
    shared.arrive(Who::Participant(2), 1, 9).unwrap();
    assert_eq!(shared.row(Who::Participant(2), 1).unwrap().vehicles, 1009);
    assert_eq!(shared.totals(Who::Marker).unwrap(), shared.report().totals());
}

#[test]
fn two_sheets_pool() {
    let (north, south) = halves();
    let pooled = pool(&north, &south).unwrap();
    let sum = |sheet: &[u8]| report(sheet).unwrap().total();
    assert_eq!(sum(&pooled).low, sum(&north).low + sum(&south).low);
    assert_eq!(sum(&pooled).high, sum(&north).high + sum(&south).high);
    let mut other = south.clone();
    other[3] = 3;
    let refused = pool(&north, &other).unwrap_err();
    assert_eq!(
        refused.to_string(),
        "second sheet: refused 3 at 3: the version is not 1 to 4, or of two sheets to pool not 4"
    );
    assert_eq!(pool(&other, &north).unwrap_err().sheet, PoolSheet::First);
    other[3] = 4;
    other[1160] ^= 1;
    assert_eq!(pool(&north, &other).unwrap_err().refusal.number, Number::Differ);
}

#[test]
fn filed_masses_are_marked() {
    let total = Band { low: 44_140_776, high: 44_140_793 };
    let verdict = |digits, places, unit| mark(Filed { digits, places, unit }, total);
    assert_eq!(verdict(4414, 2, Unit::Kilogram), Verdict::Agrees);
    assert_eq!(verdict(44_140_785, 3, Unit::Gram), Verdict::Fits);
    assert_eq!(verdict(44_130, 0, Unit::Gram), Verdict::Low(10_276));
    assert_eq!(verdict(4415, 2, Unit::Kilogram), Verdict::High(4_207));
    assert_eq!(verdict(1, 13, Unit::Kilogram), Verdict::Unreadable);
}

#[test]
fn threads_may_call_at_once() {
    let sheet = sample("odometer");
    let alone = report(&sheet).unwrap();
    std::thread::scope(|scope| {
        for _ in 0..4 {
            scope.spawn(|| assert_eq!(report(&sheet), Ok(alone.clone())));
        }
    });
}
