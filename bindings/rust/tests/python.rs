//! The crate against the Python binding: every call on all samples, on damaged ones and on two sheets that pool.
mod support;
use evaporation::*;
use std::process::Command;
use std::{env, fs, process};
use support::{damaged, halves, samples, top, Sample};

const TRAVEL: Travel =
    Travel { town: true, urban_mileage: 4, rural_mileage: 3, highway_mileage: 2, rural_speed: 60, highway_speed: 110 };

fn band(band: Band) -> String {
    format!("{} {}", band.low, band.high)
}

fn words(masses: Masses) -> String {
    [masses.diurnal, masses.soak, masses.running].map(band).join(" ")
}

fn refused(refusal: Refusal) -> String {
    format!("refused {} at {}", refusal.number.code(), refusal.place)
}

fn cell(cell: Cell) -> String {
    let (kind, low, high) = match cell {
        Cell::Empty => (0, 0.0, 0.0),
        Cell::Exact(mass) => (1, mass, mass),
        Cell::Band(low, high) => (2, low, high),
    };
    format!("{kind} {low} {high}")
}

fn report_lines(sheet: &[u8]) -> Result<Vec<String>, Refusal> {
    let report = report(sheet)?;
    let Totals { cars, light, two, all, total } = report.totals();
    let mut lines: Vec<String> = report.rows().chain([cars, light, two, all]).map(words).collect();
    lines.push(band(total));
    lines.push(species(total.high).map(|mass| mass.to_string()).join(" "));
    let cells = cells_of_row(report.row(0).unwrap(), TRAVEL);
    lines.push(cells.map_or_else(refused, |row| [row.urban, row.rural, row.highway].map(cell).join(" ")));
    lines.push(match mark(Filed { digits: total.low / 1000, places: 0, unit: Unit::Gram }, total) {
        Verdict::Agrees => "0 0".into(),
        Verdict::Fits => "1 0".into(),
        Verdict::Low(off) => format!("2 {off}"),
        Verdict::High(off) => format!("3 {off}"),
        Verdict::Unreadable => "4 0".into(),
    });
    Ok(lines)
}

fn bulk_lines(sheet: &[u8]) -> Result<Vec<String>, Refusal> {
    let seven = |bands: [Band; 7]| bands.map(band).join(" ");
    let all = factors(sheet)?;
    let last = all.season_count() - 1;
    let mut lines = vec![seven(row_factors(sheet, 0, 0)?)];
    lines.extend((0..all.row_count()).map(|row| seven(all.row(last, row).unwrap())));
    for season in report_seasons(sheet)? {
        lines.extend(season.rows().chain([season.totals().all]).map(words));
        lines.push(band(season.total()));
    }
    Ok(lines)
}

fn done(answer: Result<(), Refusal>, what: &str) -> String {
    answer.map_or_else(refused, |()| what.into())
}

fn ledger_lines(sheet: &[u8]) -> Result<Vec<String>, Refusal> {
    let mut ledger = Ledger::open(sheet)?;
    let mut lines = vec![done(ledger.arrive(0, 12), "arrived"), done(ledger.depart(1, 7), "departed")];
    lines.push(band(ledger.report().total()));
    assert_eq!(report(ledger.sheet()), Ok(ledger.report()));
    let owners: Vec<u8> = (0..ledger.report().row_count()).map(|row| 1 + (row % 8) as u8).collect();
    let mut shared = SharedLedger::open(sheet, &owners)?;
    lines.push(done(shared.arrive(Who::Participant(1), 0, 5), "arrived"));
    lines.push(done(shared.depart(Who::Participant(2), 0, 5), "departed"));
    let read = shared.row(Who::Marker, 0)?;
    lines.push(format!("{} {}", read.vehicles, words(read.masses)));
    lines.push(band(shared.totals(Who::Marker)?.total));
    Ok(lines)
}

fn finding(sheet: &[u8]) -> String {
    let Some(f) = explain(sheet) else { return ["0"; 10].join(" ") };
    let numbers = [f.number.code(), f.place, f.reason, f.index, f.season, f.at, f.bytes, f.value, f.least, f.most];
    numbers.map(|number| number.to_string()).join(" ")
}

fn pooled(sheet: &[u8], other: &[u8]) -> String {
    match pool(sheet, other) {
        Ok(pooled) => pooled.iter().map(|byte| format!("{byte:02x}")).collect(),
        Err(PoolRefusal { sheet, refusal }) => {
            let sheet =
                1 + [PoolSheet::First, PoolSheet::Second, PoolSheet::Pooled].iter().position(|&s| s == sheet).unwrap();
            format!("{} of sheet {sheet}", refused(refusal))
        }
    }
}

fn lines(Sample { name, sheet }: &Sample) -> Vec<String> {
    let mut lines = vec![format!("# {name}.evp")];
    lines.extend(text(sheet).lines().map(String::from));
    lines.push(done(check(sheet), "accepted"));
    lines.push(species_of(sheet).map_or_else(refused, |found| {
        let numbers = [found.total].into_iter().chain(found.milligrams);
        numbers.map(|number| number.to_string()).collect::<Vec<_>>().join(" ")
    }));
    lines.push(finding(sheet));
    lines.extend(Factor::ALL.map(|one| factor(sheet, 0, 1, one).map_or_else(refused, band)));
    for part in [report_lines(sheet), bulk_lines(sheet), ledger_lines(sheet)] {
        lines.extend(part.unwrap_or_else(|refusal| vec![refused(refusal)]));
    }
    lines.push(pooled(sheet, sheet));
    lines
}

#[test]
fn answers_as_the_python_binding_has_them() {
    let folder = env::temp_dir().join(format!("evaporation-{}", process::id()));
    fs::create_dir_all(&folder).unwrap();
    let (north, south) = halves();
    let mut sheets = samples();
    sheets.extend(damaged(16));
    sheets.push(Sample { name: "north".into(), sheet: north });
    sheets.push(Sample { name: "south".into(), sheet: south });
    sheets.sort_by(|a, b| a.name.cmp(&b.name));
    for Sample { name, sheet } in &sheets {
        fs::write(folder.join(format!("{name}.evp")), sheet).unwrap();
    }
    let script = top().join("bindings/rust/tests/answers.py");
    let run = Command::new("python3").arg(script).arg(&folder).output().expect("python3 starts");
    fs::remove_dir_all(&folder).unwrap();
    assert!(run.status.success(), "{}", String::from_utf8_lossy(&run.stderr));
    let python = String::from_utf8(run.stdout).unwrap();
    let (major, minor, patch) = library_version();
    let mut ours = vec![format!("{major} {minor} {patch}")];
    ours.extend(sheets.iter().flat_map(lines));
    for (i, (ours, theirs)) in ours.iter().zip(python.lines()).enumerate() {
        assert_eq!(ours, theirs, "line {}", i + 1);
    }
    assert_eq!(ours.len(), python.lines().count());
}
