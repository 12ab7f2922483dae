//! The commands and what `-h` says of each.

/// A command of the program.
pub struct Command {
    /// Its name.
    pub name: &'static str,
    /// How many files it takes.
    pub files: usize,
    /// The options that it takes, beside -h.
    pub options: &'static [&'static str],
    /// What -h says.
    pub help: &'static str,
}

/// What the program says of itself.
pub const PROGRAM: &str = "\
sikalumdo: checks, tallies, cuts, audits and prints BCF files; what a record may be, a proved library says.

  sikalumdo check FILE                                                  every record read
  sikalumdo tally FILE [--summary]                                      genotypes counted
  sikalumdo cut FILE --without NAMES | --only NAMES -o RELEASE          a release of some people
  sikalumdo audit FILE RELEASE --without NAMES | --only NAMES           whether a release is what it should be
  sikalumdo vcf FILE [-o TEXT]                                          sites and genotypes as VCF text

A FILE is BCF 2.2, plain or packed (then bgzip or bcftools unpacks it); - is standard input. `sikalumdo COMMAND -h` says more.
Exit status: 0; 1 where something was refused or differs; 2 for wrong usage, and for a file that cannot be read or written.
";

/// The five commands.
pub const COMMANDS: [Command; 5] = [
    Command {
        name: "check",
        files: 1,
        options: &["--threads", "--quiet"],
        help: "\
sikalumdo check FILE [--threads N] [--quiet]

Reads every record. Prints a line for each that is refused: its number in the file, contig and position where they can be
read, the byte of the file, the refusal's number and place, and the rule. The last line counts records, accepted and refused.

  --threads N   so many records at once
  --quiet       no last line and no progress

Example:  sikalumdo check cohort.bcf
",
    },
    Command {
        name: "tally",
        files: 1,
        options: &["--summary", "--threads", "--quiet"],
        help: "\
sikalumdo tally FILE [--summary] [--threads N] [--quiet]

Prints a row a record, with tabs between: contig, one-based position, ID, REF, ALT, people, people without genotype, missing
alleles, and the calls of each allele, REF first, with commas between. A record that is refused, or has more than 64 alleles,
has its refusal for the calls, is named on standard error, and makes the exit status 1.

  --summary     the totals alone
  --threads N   so many records at once
  --quiet       no progress

Example:  sikalumdo tally cohort.bcf > counts.tsv
",
    },
    Command {
        name: "cut",
        files: 1,
        options: &["--without", "--only", "-o", "-O", "--nobody", "--leave-out-refused", "--threads", "--quiet"],
        help: "\
sikalumdo cut FILE --without NAMES | --only NAMES -o RELEASE [-O b] [--nobody] [--leave-out-refused] [--threads N] [--quiet]

Writes a release: the header with the people who stay, and of every record what they have; INFO stays as it was, AC and AN too.
NAMES is a file of names, one a line. A name that nobody has, a name twice, or a record that is refused stops it, and no
release is left behind. Lines of the header that name somebody who left (##SAMPLE, ##PEDIGREE and the like) go, and are listed.

  --without NAMES       these people leave
  --only NAMES          these people stay, in the file's order
  -o RELEASE            where the release goes; - is standard output
  -O b                  packed by bgzip; -O u, not packed, goes without saying
  --nobody              NAMES may be empty: nobody leaves, or with --only nobody stays
  --leave-out-refused   records that are refused are left out, and listed on standard error
  --threads N           so many records at once
  --quiet               says only what was left out

Example:  sikalumdo cut cohort.bcf --without withdrawn.txt -o release.bcf -O b
",
    },
    Command {
        name: "audit",
        files: 2,
        options: &["--without", "--only", "--nobody", "--json", "--threads", "--quiet"],
        help: "\
sikalumdo audit FILE RELEASE --without NAMES | --only NAMES [--nobody] [--json] [--threads N] [--quiet]

Says whether RELEASE is FILE with exactly the people who stay: they and nobody else in the header, in order; the same records in
the same order, each byte for byte the choice that the proved library makes; and tallies that add up. The report says what is
claimed and what is not. The exit status is 0 where nothing differs, 1 otherwise, with the first differences in words.

  --without NAMES   these people should have left
  --only NAMES      these people should have stayed
  --nobody          NAMES may be empty
  --json            the report for machines
  --threads N       so many records at once
  --quiet           no progress

Example:  sikalumdo audit cohort.bcf release.bcf --without withdrawn.txt
",
    },
    Command {
        name: "vcf",
        files: 1,
        options: &["-o", "--threads", "--quiet"],
        help: "\
sikalumdo vcf FILE [-o TEXT] [--threads N] [--quiet]

Prints VCF text: of the header what the lines still need, the format, contigs, filters and GT, and a line a record, with a dot
for INFO and no FORMAT but GT. A record without GT has dots for FORMAT and for each person; where the header has no GT or no
people, there are eight columns throughout. A record that is refused has no line, is named on standard error, and makes the exit
status 1; a QUAL that is neither missing nor a whole number from 0 to 16,777,215 is refused, too.

  -o TEXT       where the text goes; standard output without it, and for -
  --threads N   so many records at once
  --quiet       says only which records are refused

Example:  sikalumdo vcf cohort.bcf -o cohort.vcf
",
    },
];
