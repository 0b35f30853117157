//! The examples of docs/LANGUAGE.md, and cases at the bounds, each for a new processor in ASCII with an empty shelf.

use plain::{Amounts, Areas, Code, LARGEST_ALLOWANCE, LARGEST_LIMITS, Library, Processor};

const AREAS: Areas = Areas { store: LARGEST_LIMITS.store, scan: LARGEST_LIMITS.scan, print: LARGEST_LIMITS.print };

struct Host {
    processor: Processor,
    library: Library,
}

/// The number, the text and the needs that an expansion answers.
type Answer = (u8, String, Amounts);

impl Host {
    fn new(limits: Amounts) -> Host {
        let processor = Processor::make(Code::ascii(), limits).unwrap_or_else(|refusal| panic!("{refusal:?}"));
        Host { processor, library: Library::shelf() }
    }

    fn expand(&mut self, source: &str) -> Answer {
        let reply = self.processor.expand(&mut self.library, LARGEST_ALLOWANCE, source.as_bytes(), AREAS);
        (reply.refusal.map_or(0, |refusal| refusal.number()), String::from_utf8_lossy(reply.text).into_owned(), reply.needs)
    }
}

fn first(source: &str) -> Answer {
    Host::new(LARGEST_LIMITS).expand(source)
}

fn needs(names: usize, roll: usize, store: usize, scan: usize) -> Amounts {
    Amounts { names, roll, store, scan, print: 0 }
}

/// What stands in backquotes on both sides of each arrow.
fn examples(page: &str) -> Vec<(&str, &str)> {
    let arrows = page.match_indices("→ `").filter(|(at, _)| page[..*at].ends_with("` ") || page[..*at].ends_with("` | "));
    let split = |(at, arrow): (usize, &str)| {
        let source = page[..at].rsplit('`').nth(1)?;
        let text = page[at + arrow.len()..].split('`').next()?;
        Some((source, text))
    };
    arrows.filter_map(split).collect()
}

#[test]
fn examples_of_the_page() {
    let page = include_str!("../../../docs/LANGUAGE.md");
    let examples = examples(page);
    assert!(examples.len() >= 35, "{} examples", examples.len());
    for (source, text) in examples {
        let (number, came, _) = first(source);
        assert_eq!((number, came.as_str()), (0, text), "{source}");
    }
}

#[test]
fn needs_of_small_sheets() {
    assert_eq!(first(""), (0, String::new(), needs(0, 0, 0, 0)));
    assert_eq!(first("###<NORM;abc>"), (0, "#3".into(), needs(0, 2, 0, 13)));
    assert_eq!(first("##<AD;2;3>"), (0, "5".into(), needs(0, 3, 0, 10)));
    assert_eq!(first("#<DS;X;abcb>#<SC;X;b>#<X;Z>"), (0, "2aZcZ".into(), needs(1, 3, 5, 27)));
    assert_eq!(first("ab#<BREAK;c>d"), (0, "abc".into(), needs(0, 2, 0, 13)));
    assert_eq!(first("<a"), (16, String::new(), needs(0, 0, 0, 2)));
    assert_eq!(first("#<DS;X;abc>#<DS;X;abcd>"), (0, String::new(), needs(1, 3, 5, 23)));
}

#[test]
fn refusals_at_the_bounds() {
    let many = ";".repeat(61);
    let source = format!("#<DS;X;ab>#<SS;X;{many}a>#<SS;X;b>");
    assert_eq!(first(&source), (33, "SS".into(), needs(1, 64, 3, 89)));
    let classes: String = ('a'..='q').map(|name| format!("#<DCL;{name};x>")).collect();
    assert_eq!(first(&classes), (35, "DCL".into(), needs(0, 3, 16, 170)));
    let mut host = Host::new(Amounts { print: 3, ..LARGEST_LIMITS });
    assert_eq!(host.expand("#<PS;abc>"), (38, "PS".into(), needs(0, 2, 0, 9)));
}

#[test]
fn what_a_refused_call_leaves() {
    // a call that the scan has no room for takes no created number
    let mut host = Host::new(Amounts { scan: 12, ..LARGEST_LIMITS });
    host.expand("#<DS;L;x#>");
    host.expand("#<CR;L;#>");
    assert_eq!(host.expand("aaaaaaa#<L>").0, 39);
    assert_eq!(host.expand("#<L>"), (0, "x0001".into(), needs(0, 1, 0, 6)));
    // COPY leaves the strings before a refused one
    let mut host = Host::new(Amounts { names: 2, ..LARGEST_LIMITS });
    host.expand("#<DS;A;1>#<DS;B;2>#<STORE;P;A;B>#<ES;A;B>#<DS;C;3>");
    assert_eq!(host.expand("#<COPY;P>"), (36, "COPY".into(), needs(2, 2, 4, 9)));
    assert_eq!(host.expand("#<A>#<NDF;B;yes;no>").1, "1no");
}

#[test]
fn created_numbers_run_out() {
    let mut host = Host::new(LARGEST_LIMITS);
    host.expand("#<DS;L;-><CR>#<CR;L;->");
    for _ in 0..9998 {
        host.expand("#<L>");
    }
    assert_eq!(host.expand("#<L>").1, "9999");
    assert_eq!(host.expand("#<L>").0, 34);
}

#[test]
fn strings_of_a_foreign_image() {
    let mut image = vec![2, 1, 1];
    image.extend([0x50].into_iter().chain([0; 19]));
    image.extend([0, 1, 0, 1, 0x50, 0xF1]);
    let library = Library::open(Code::ebcdic(), &image).unwrap_or_else(|refusal| panic!("{refusal:?}"));
    let mut host = Host { library, ..Host::new(LARGEST_LIMITS) };
    assert_eq!(host.expand("#<P>").0, 31);
    assert_eq!(host.expand("#<NAMES;P>").1, "P");
    assert_eq!(host.expand("#<COPY;P>").0, 31);
}
