//! The records that are timed: made from a seed, and laid out in files for the line programs and for htslib.

use sikalumdo::Facts;

/// Offsets in the dictionary, PASS being 0.
pub const DEPTH: u32 = 1;
pub const TOTAL: u32 = 2;
pub const GENOTYPE: u32 = 3;
pub const QUALITY: u32 = 4;

/// The names of the strings, by offset, and of the contig.
pub const STRINGS: [&str; 5] = ["PASS", "DP", "TD", "GT", "GQ"];
pub const CONTIGS: [&str; 1] = ["1"];

const ALLELES: [&[u8]; 2] = [b"G", b"A"];
pub const END: i32 = i32::MIN + 1;
pub const QUAL: u32 = 0x41E8_0000;
pub const POS: i32 = 14_369;

/// A FORMAT field of integers: its key, its type, its length for each person, and the numbers of all people.
pub struct Format {
    pub key: u32,
    pub code: u8,
    pub len: u32,
    pub numbers: Vec<i32>,
}

/// A site of two alleles without a filter, with one INFO field and some FORMAT fields.
pub struct Record {
    pub facts: Facts,
    pub formats: Vec<Format>,
}

/// A xorshift, so that each run times the same records.
struct Random(u64);

impl Random {
    fn below(&mut self, bound: u64) -> i32 {
        self.0 ^= self.0 << 13;
        self.0 ^= self.0 >> 7;
        self.0 ^= self.0 << 17;
        (self.0 % bound) as i32
    }
}

/// Diploid genotypes, most of them of the first allele and some of them missing; people without a second slot have an
/// end of vector there, one of `haploid` people if that isn't 0.
fn genotypes(random: &mut Random, people: u32, haploid: u64) -> Format {
    let mut allele = || match random.below(100) {
        0..=74 => 2,
        75..=97 => 4,
        _ => 0,
    };
    let mut numbers: Vec<i32> = (0..2 * people).map(|_| allele()).collect();
    for pair in numbers.chunks_mut(2) {
        if haploid > 0 && random.below(haploid) == 0 {
            pair[1] = END;
        }
    }
    Format { key: GENOTYPE, code: 1, len: 2, numbers }
}

impl Record {
    pub fn new(people: u32, haploid: u64, with_depths: bool) -> Record {
        let random = &mut Random(0x9E37_79B9_7F4A_7C15);
        let mut formats = vec![genotypes(random, people, haploid)];
        if with_depths {
            let mut field = |key, code, below| {
                let numbers = (0..people).map(|_| random.below(below)).collect();
                Format { key, code, len: 1, numbers }
            };
            formats.extend([field(DEPTH, 2, 300), field(QUALITY, 1, 100)]);
            // The field holds at least one number that type 1 doesn't, whatever the people.
            formats[1].numbers[0] = 299;
        }
        Record { facts: Facts { strings: 5, contigs: 1, people, gt: GENOTYPE }, formats }
    }

    /// The bytes, which this library and htslib read alike.
    pub fn bytes(&self) -> Vec<u8> {
        let in_site = (ALLELES.len() as u32) << 16 | 1;
        let in_genotypes = (self.formats.len() as u32) << 24 | self.facts.people;
        let words = [0, POS as u32, 1, QUAL, in_site, in_genotypes];
        let mut site: Vec<u8> = words.iter().flat_map(|word| word.to_le_bytes()).collect();
        site.push(0x07);
        ALLELES.iter().for_each(|text| site.extend([[0x17].as_slice(), text].concat()));
        site.extend([0x01, 0x11, TOTAL as u8, 0x11, 14]);
        let mut genotypes = Vec::new();
        for format in &self.formats {
            genotypes.extend([0x11, format.key as u8, (format.len as u8) << 4 | format.code]);
            format.numbers.iter().for_each(|&number| genotypes.extend(packed(number, format.code)));
        }
        let lengths = [site.len() as u32, genotypes.len() as u32].map(u32::to_le_bytes);
        [&lengths.concat(), &site, &genotypes].map(Vec::as_slice).concat()
    }

    /// A file of this record many times, with a header before them, uncompressed.
    pub fn htslib_file(&self, copies: usize) -> Vec<u8> {
        let mut header = String::from(concat!(
            "##fileformat=VCFv4.2\n",
            "##FILTER=<ID=PASS,Description=\"All filters passed\",IDX=0>\n",
            "##contig=<ID=1,IDX=0>\n",
            "##FORMAT=<ID=DP,Number=1,Type=Integer,Description=\"Depth\",IDX=1>\n",
            "##INFO=<ID=TD,Number=1,Type=Integer,Description=\"Total depth\",IDX=2>\n",
            "##FORMAT=<ID=GT,Number=1,Type=String,Description=\"Genotype\",IDX=3>\n",
            "##FORMAT=<ID=GQ,Number=1,Type=Integer,Description=\"Quality\",IDX=4>\n",
            "#CHROM\tPOS\tID\tREF\tALT\tQUAL\tFILTER\tINFO\tFORMAT",
        ));
        (0..self.facts.people).for_each(|person| header.push_str(&format!("\tp{person}")));
        header.push_str("\n\0");
        let mut file = b"BCF\x02\x02".to_vec();
        file.extend((header.len() as u32).to_le_bytes());
        file.extend(header.as_bytes());
        file.extend(self.bytes().repeat(copies));
        file
    }

    /// A file of lines for the line program, with this record many times.
    pub fn lines(&self, copies: usize) -> String {
        let Facts { strings, contigs, people, gt } = self.facts;
        let digits: String = self.bytes().iter().map(|byte| format!("{byte:02X}")).collect();
        format!("{strings:08X}{contigs:08X}{people:08X}{gt:08X}\n{}", format!("{digits}\n").repeat(copies))
    }
}

/// An element of type 1 or 2; its end of vector has the width's top bit and a one.
fn packed(number: i32, code: u8) -> Vec<u8> {
    let number = if number == END { (1 << (8 * code - 1)) | 1 } else { number };
    number.to_le_bytes()[..code as usize].to_vec()
}
