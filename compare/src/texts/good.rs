//! Good lines, with the attributes that the files of Ensembl, NCBI and Phytozome have, as tools/make-annotation writes them.

use super::Dice;

const WORDS: [&str; 8] = [
    "ATP", "binding", "kinase", "like", "protein", "putative", "subunit", "zinc",
];
const JOINTS: [&str; 8] = [" ", " ", " ", "-", "%2C ", "%3B ", " %26 ", "/"];
const TYPES: [&str; 6] = ["gene", "mRNA", "exon", "CDS", "five_prime_UTR", "lnc_RNA"];
const SOURCES: [&str; 4] = ["araport11", "BestRefSeq%2CGnomon", "phytozomev12", "."];
const SCORES: [&str; 6] = [".", ".", "0", "-1.5", "3e-10", "12.75E+3"];

/// A text of some lines of any kind, each ended by a line feed, now and then with a carriage return, the last one not always.
pub fn lines(dice: &mut Dice, count: usize) -> Vec<u8> {
    let mut text = Vec::new();

    for n in 0..count {
        match dice.below(12) {
            0 => text.extend(directive(dice).bytes()),
            1 => text.extend(b"#!genome-build TAIR10"),
            2 => text.extend(b"###"),
            3 if dice.once_in(2) => {}
            _ => text.extend(line(dice)),
        }

        if dice.once_in(6) {
            text.push(b'\r');
        }

        if n + 1 < count || dice.once_in(2) {
            text.push(b'\n');
        }
    }

    text
}

/// A record's line.
pub fn line(dice: &mut Dice) -> Vec<u8> {
    let start = dice.between(1, 40_000_000);
    let end = start + dice.below(5000);
    let (name, source, ty) = (name(dice), dice.one_of(&SOURCES), dice.one_of(&TYPES));
    let (score, strand, phase) = (
        dice.one_of(&SCORES),
        dice.one_of(&["+", "-", ".", "?"]),
        dice.one_of(&[".", "0", "1", "2"]),
    );
    let mut line = format!("{name}\t{source}\t{ty}\t{start}\t{end}\t{score}\t{strand}\t{phase}\t").into_bytes();
    line.extend(attributes(dice));
    line
}

/// A column 9.
pub fn attributes(dice: &mut Dice) -> Vec<u8> {
    let n = dice.below(99_999);
    let phrase = phrase(dice);

    match dice.below(8) {
        0..3 => {
            format!("ID=gene:AT1G{n:05};Name=ABC{n};biotype=protein_coding;description={phrase} [Source:P%3BAcc:{n}]")
        }
        3..5 => format!(
            "ID=rna-NM_{n};Parent=gene-LOC{n};Dbxref=Araport:{n},TAIR:{n},GeneID:{n};product={phrase}%2C variant"
        ),
        5 => format!("ID=Potri.{n}.v3.0;Name=Potri.{n};pacid={n};longest=1;"),
        6 => format!("Parent=transcript:{n};%4Eote={phrase},,{phrase};a=;=b"),
        _ => ".".to_owned(),
    }
    .into_bytes()
}

fn directive(dice: &mut Dice) -> String {
    let n = dice.between(1, 40_000_000);

    match dice.below(3) {
        0 => "##gff-version 3.1.26".to_owned(),
        1 => format!("##sequence-region {} 1 {n}", name(dice)),
        _ => "##genome-build NCBI B36".to_owned(),
    }
}

fn name(dice: &mut Dice) -> String {
    let n = dice.below(30);

    match dice.below(4) {
        0 => format!("{n}"),
        1 => format!("NC_{n:06}.9"),
        2 => format!("Chr{n:02}"),
        _ => format!("scaffold%20{n}%7C"),
    }
}

fn phrase(dice: &mut Dice) -> String {
    let mut text = dice.one_of(&WORDS).to_owned();

    for _ in 0..dice.below(7) {
        text.push_str(dice.one_of(&JOINTS));
        text.push_str(dice.one_of(&WORDS));
    }

    text
}
