//! `vantorel make`: a UF2 file of an image.

use crate::args::{Args, Opt};
use crate::check::verdict::unfit;
use crate::json::Json;
use crate::number::{self, count};
use crate::out::Out;
use crate::{families, files, table, End, Outcome, Trouble};
use tools::{MakeRefusal, BLOCK_BYTES, PAGE_BYTES};

/// The bytes of a sector, each of which is a region with `--regions`.
const SECTOR_BYTES: u64 = 4096;

/// Its page of help.
pub const HELP: &str = "\
vantorel make IMAGE -o OUT.uf2 --family NAME|NUMBER --start ADDRESS [--pad BYTE]
    [--regions] [--json]

Makes the UF2 file that brings the bytes of IMAGE to the addresses from --start
on. The image is whole pages of 256 bytes, the start a multiple of 256 from
0x10000000 on, and the image ends at 0x12000000 at the latest.

  -o OUT.uf2       the file to write
  --family FAMILY  arm-s, riscv, data .., or a number such as 0xe48bff59
  --start ADDRESS  where the image's first byte goes, such as 0x10000000
  --pad BYTE       0xFF or 0x00: fills up the last page of an image that is no
                   whole number of pages
  --regions        names each sector with its MD5 digest (flag 0x4000): sent
                   again after a cut, the blocks of sectors that are whole are
                   answered 17 Kept and not written
  --json           the same for scripts

Exit status 0 where the file was made, 1 where no file can be made of the image,
2 for a wrong command line or a file that cannot be read or written.

    vantorel make blink.bin -o blink.uf2 --family arm-s --start 0x10000000

";

/// Its options.
pub const OPTIONS: &[Opt] = &[
    Opt::Output("-o"),
    Opt::Value("--family"),
    Opt::Value("--start"),
    Opt::Value("--pad"),
    Opt::Flag("--regions"),
    Opt::Flag("--json"),
];

/// A file to make.
struct Job<'a> {
    name: &'a str,
    out: &'a str,
    len: usize,
    /// How many bytes of it `--pad` added.
    padded: usize,
    /// What kind of file it looks like, where that is no image.
    kind: Option<&'static str>,
    family: u32,
    start: u32,
    /// Whether each sector is named as a region.
    regions: bool,
}

impl Job<'_> {
    /// Why it is not made, in a sentence.
    fn refusal(&self, why: MakeRefusal) -> String {
        let Job {
            name, len, start, ..
        } = self;
        let more = match why {
            MakeRefusal::BadImage => format!(
                "{name} has {}{}",
                count(*len as u64, "byte"),
                match len.next_multiple_of(PAGE_BYTES) {
                    0 => String::new(),
                    full => format!("; --pad 0xFF or --pad 0x00 fills it up to {full}"),
                }
            ),
            MakeRefusal::BadStart => {
                format!("{name} cannot start at 0x{start:08x} (hex numbers begin with 0x)")
            }
            MakeRefusal::PastWindow => {
                format!("{name} has {len} bytes, from 0x{start:08x} on")
            }
            MakeRefusal::ShortOutput => name.to_string(),
        };
        let words = table::words("make", why.number());
        format!("{} {why:?}: {words}: {more}", why.number())
    }

    /// What was made.
    fn words(&self, blocks: usize) -> String {
        format!(
            "{}: {} of family {}, for 0x{:08x} to 0x{:08x}{}{}",
            files::short(self.out),
            count(blocks as u64, "block"),
            families::words(self.family),
            self.start,
            u64::from(self.start) + self.len as u64 - 1,
            match self.padded {
                0 => String::new(),
                n => format!(", the last {} by --pad", count(n as u64, "byte")),
            },
            match self.regions {
                false => String::new(),
                true => format!(", {}", count(self.sectors(), "region")),
            }
        )
    }

    /// How many sectors the image touches.
    fn sectors(&self) -> u64 {
        let from = u64::from(self.start);
        (from + self.len as u64).div_ceil(SECTOR_BYTES) - from / SECTOR_BYTES
    }

    fn json(&self, blocks: usize, refusal: Option<MakeRefusal>) -> Json {
        Json::Object(vec![
            ("image", self.name.into()),
            ("out", self.out.into()),
            ("made", refusal.is_none().into()),
            ("blocks", blocks.into()),
            ("family", self.family.into()),
            ("start", self.start.into()),
            ("refusal", refusal.map(|why| why.number()).into()),
            ("padded", self.padded.into()),
            ("begins_as", self.kind.into()),
            ("regions", self.regions.into()),
        ])
    }
}

fn start(args: &Args) -> Result<u32, Trouble> {
    let text = args.needed("--start", "the address of the image's first byte")?;
    match number::parse_u32(text) {
        Some(start) => Ok(start),
        None => args.wrong(format!(
            "--start wants an address, such as 0x10000000, and not '{text}'"
        )),
    }
}

/// The byte of `--pad`.
fn pad(args: &Args) -> Result<Option<u8>, Trouble> {
    match args.value("--pad").map(number::parse) {
        None => Ok(None),
        Some(Some(0)) => Ok(Some(0)),
        Some(Some(255)) => Ok(Some(255)),
        Some(_) => args.wrong("--pad is 0xFF or 0x00"),
    }
}

/// The name of a kind of file that is no image, by how it begins.
fn no_image(image: &[u8]) -> Option<&'static str> {
    let hex = |line: &[u8]| {
        let digits = line.get(1..9).unwrap_or_default();
        line.starts_with(b":") && digits.len() == 8 && digits.iter().all(u8::is_ascii_hexdigit)
    };
    match image {
        _ if image.starts_with(b"UF2\n") => Some("a UF2 file"),
        _ if image.starts_with(b"\x7fELF") => Some("an ELF file"),
        _ if hex(image) => Some("an Intel Hex file"),
        _ => None,
    }
}

/// Runs the command.
pub fn run(args: &Args, out: &mut Out) -> Outcome {
    let to = args.needed("-o", "the name of the file to make")?;
    let family = families::parse(args.needed("--family", "a name or a number")?);
    let family = family.or_else(|why| args.wrong(why))?;
    let start = start(args)?;
    let [name] = args.files(["IMAGE"])?;
    let pad = pad(args)?;
    let mut image = files::read(name)?;
    let padded = match pad {
        Some(_) => image.len().next_multiple_of(PAGE_BYTES) - image.len(),
        None => 0,
    };
    image.resize(image.len() + padded, pad.unwrap_or_default());
    let kind = no_image(&image);
    if let Some(kind) = kind {
        out.note(format_args!(
            "warning: {name} begins as {kind}, which is no image: its bytes are taken as they are"
        ));
    }
    let job = Job {
        name,
        out: to,
        len: image.len(),
        padded,
        kind,
        family,
        start,
        regions: args.flag("--regions"),
    };
    let mut file = vec![0; image.len().div_ceil(PAGE_BYTES) * BLOCK_BYTES];
    let made = match job.regions {
        false => tools::make(&image, family, start, &mut file),
        true => tools::make_regions(&image, family, start, &mut file),
    };
    if made == Err(MakeRefusal::BadStart) {
        return args.wrong(job.refusal(MakeRefusal::BadStart));
    }
    if let Ok(blocks) = made {
        file.truncate(blocks * BLOCK_BYTES);
        files::write(to, &file)?;
        if let Some(fault) = unfit(&file, family)? {
            out.note(format_args!("warning: {to} is valid for no board: {fault}"));
        }
    }
    if args.flag("--json") {
        out.line(job.json(made.unwrap_or(0), made.err()));
    } else if let Ok(blocks) = made {
        out.line(job.words(blocks));
    }
    match made {
        Ok(_) => Ok(End::Whole),
        Err(why) => {
            out.note(format_args!("nothing was made: {}", job.refusal(why)));
            Ok(End::Short)
        }
    }
}
