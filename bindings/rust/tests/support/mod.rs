//! What the tests share: the samples, damaged ones, and the programs.
#![allow(dead_code)]
use std::fs;
use std::io::Write;
use std::path::{Path, PathBuf};
use std::process::{Command, Stdio};

/// The repository, or the release, in which this crate stands.
pub fn top() -> PathBuf {
    Path::new(env!("CARGO_MANIFEST_DIR")).join("../..").canonicalize().expect("the crate stands in a repository")
}

pub struct Sample {
    pub name: String,
    pub sheet: Vec<u8>,
}

pub fn samples() -> Vec<Sample> {
    let folder = fs::read_dir(top().join("samples")).expect("there are samples");
    let mut paths: Vec<_> = folder.map(|entry| entry.expect("a file").path()).collect();
    paths.retain(|path| path.extension().is_some_and(|ending| ending == "evp"));
    paths.sort();
    assert!(paths.len() >= 5, "there are samples");
    let named = |path: &PathBuf| path.file_stem().unwrap().to_string_lossy().into_owned();
    paths.iter().map(|path| Sample { name: named(path), sheet: fs::read(path).unwrap() }).collect()
}

pub fn sample(name: &str) -> Vec<u8> {
    fs::read(top().join("samples").join(name).with_extension("evp")).expect("the sample is there")
}

/// A pooled sheet's two halves.
pub fn halves() -> (Vec<u8>, Vec<u8>) {
    let data = top().join("crates/pool/data");
    (fs::read(data.join("north.evp")).unwrap(), fs::read(data.join("south.evp")).unwrap())
}

/// Numbers by chance, the same in every run (xorshift).
pub struct Chance(pub u64);

impl Chance {
    pub fn below(&mut self, most: usize) -> usize {
        self.0 ^= self.0 << 13;
        self.0 ^= self.0 >> 7;
        self.0 ^= self.0 << 17;
        (self.0 % most as u64) as usize
    }
}

/// Every sample with something wrong, in several ways each: bytes changed, in the head or anywhere; cut; longer.
pub fn damaged(of_each: usize) -> Vec<Sample> {
    let mut chance = Chance(0x9e37_79b9_7f4a_7c15);
    let mut found = Vec::new();
    for Sample { name, sheet } in samples() {
        for i in 0..of_each {
            let mut broken = sheet.clone();
            match i % 4 {
                0 => broken.truncate(chance.below(sheet.len())),
                1 => broken.extend_from_slice(&sheet[..1 + chance.below(40)]),
                2 => broken[chance.below(8)] = chance.below(256) as u8,
                _ => (),
            }
            for _ in 0..i % 3 + usize::from(i % 4 == 3) {
                if !broken.is_empty() {
                    let at = chance.below(broken.len());
                    broken[at] = chance.below(256) as u8;
                }
            }
            found.push(Sample { name: format!("{name}-{i:02}"), sheet: broken });
        }
    }
    found
}

/// What a program prints for a sheet on its standard input.
pub fn printed(program: &str, sheet: &[u8]) -> String {
    let folders = [top().join("bin"), top().join("target/bin")];
    let path = folders.iter().map(|folder| folder.join(program)).find(|path| path.exists());
    let path = path.unwrap_or_else(|| panic!("no program {program}; rt ci and bash c/programs make it"));
    let mut run = Command::new(path).stdin(Stdio::piped()).stdout(Stdio::piped()).spawn().expect("it starts");
    run.stdin.take().unwrap().write_all(sheet).expect("it reads the sheet");
    let done = run.wait_with_output().expect("it ends");
    String::from_utf8(done.stdout).expect("it prints ASCII")
}
