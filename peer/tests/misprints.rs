//! Wrong writers and wrong readers of pages: each is told apart by the gate's vectors.

#[path = "common/records.rs"]
mod records;
#[path = "common/variant.rs"]
mod variant;

use peer::cases::{all_calls, Case};
use peer::image::{self, RECORD, VIEWER_WORDS, WORDS};
use peer::lent::{Core, Peer};
use peer::listing;
use peer::pages::{self, LINE, PAGE};
use peer::sound;
use peer::value::{Block, Dart, Site, Third, RACK};
use peer::vectors;
use records::{parse, Reader};
use variant::{Variant, RIGHT};

/// How a wrong writer lays out its pages.
#[derive(Clone, Copy)]
struct Layout {
    per_page: usize,
    first_page: usize,
    count: fn(usize) -> usize,
    dart: fn(u32, &Dart) -> String,
    made_up: bool,
}

const AS_ASKED: Layout = Layout {
    per_page: 59,
    first_page: 1,
    count: |darts| darts.div_ceil(59).max(1),
    dart: |serial, dart| line(serial, dart, &format!("{:48}", listing::third(dart.third))),
    made_up: true,
};

fn line(serial: u32, dart: &Dart, third: &str) -> String {
    format!("{serial:>10}{:>10}{:>10}  {third}", dart.next, dart.opposite)
}

fn laid_out(layout: Layout, block: &Block) -> Vec<u8> {
    let lines: Vec<String> = block.darts.iter().map(|(serial, dart)| (layout.dart)(*serial, dart)).collect();
    let count = (layout.count)(lines.len());
    let mut text = String::new();
    for page in 0..count {
        text += &format!("{:>10}{:>10}{count:>10}{:50}\n", block.number, page + layout.first_page, "");
        for at in page * layout.per_page..(page + 1) * layout.per_page {
            match lines.get(at) {
                Some(line) => text += &format!("{line:80}\n"),
                None if layout.made_up => text += &format!("{:80}\n", ""),
                None => {}
            }
        }
    }
    text.into_bytes()
}

/// Writes other pages where the right ones, or 30, would be given.
fn writes(site: Site, block: &[u64], out: &mut [u8], written: &mut u64, pages: impl Fn(&Block) -> Vec<u8>) -> u32 {
    let right = Peer.write_pages(site, block, &mut out.to_vec(), &mut 0);
    if ![0, 30].contains(&right) {
        return right;
    }
    let bytes = pages(&image::decode(block).unwrap());
    let Some(front) = out.get_mut(..bytes.len()) else { return 30 };
    front.copy_from_slice(&bytes);
    *written = bytes.len() as u64;
    0
}

fn lays_out(layout: Layout, site: Site, block: &[u64], out: &mut [u8], written: &mut u64) -> u32 {
    writes(site, block, out, written, |block| laid_out(layout, block))
}

fn writers() -> Vec<(&'static str, Variant)> {
    vec![
        (
            "pages from 0",
            Variant { write_pages: |s, b, o, w| lays_out(Layout { first_page: 0, ..AS_ASKED }, s, b, o, w), ..RIGHT },
        ),
        (
            "60 darts a page",
            Variant { write_pages: |s, b, o, w| lays_out(Layout { per_page: 60, ..AS_ASKED }, s, b, o, w), ..RIGHT },
        ),
        (
            "58 darts a page",
            Variant { write_pages: |s, b, o, w| lays_out(Layout { per_page: 58, ..AS_ASKED }, s, b, o, w), ..RIGHT },
        ),
        (
            "a page more where the last is full",
            Variant {
                write_pages: |s, b, o, w| lays_out(Layout { count: |darts| darts / 59 + 1, ..AS_ASKED }, s, b, o, w),
                ..RIGHT
            },
        ),
        (
            "the last page left out",
            Variant {
                write_pages: |s, b, o, w| lays_out(Layout { count: |d| (d / 59).max(1), ..AS_ASKED }, s, b, o, w),
                ..RIGHT
            },
        ),
        (
            "no page of an empty block",
            Variant {
                write_pages: |s, b, o, w| lays_out(Layout { count: |d| d.div_ceil(59), ..AS_ASKED }, s, b, o, w),
                ..RIGHT
            },
        ),
        (
            "the last page not made up",
            Variant { write_pages: |s, b, o, w| lays_out(Layout { made_up: false, ..AS_ASKED }, s, b, o, w), ..RIGHT },
        ),
        (
            "third links at the right",
            Variant {
                write_pages: |s, b, o, w| {
                    let dart = |n: u32, d: &Dart| line(n, d, &format!("{:>48}", listing::third(d.third)));
                    lays_out(Layout { dart, ..AS_ASKED }, s, b, o, w)
                },
                ..RIGHT
            },
        ),
        (
            "one blank before a third link",
            Variant {
                write_pages: |s, b, o, w| {
                    let dart = |n: u32, d: &Dart| line(n, d, &listing::third(d.third)).replacen("  free", " free", 1);
                    lays_out(Layout { dart, ..AS_ASKED }, s, b, o, w)
                },
                ..RIGHT
            },
        ),
        (
            "numbers at the left",
            Variant {
                write_pages: |s, b, o, w| {
                    let dart = |n: u32, d: &Dart| {
                        format!("{n:<10}{:<10}{:<10}  {}", d.next, d.opposite, listing::third(d.third))
                    };
                    lays_out(Layout { dart, ..AS_ASKED }, s, b, o, w)
                },
                ..RIGHT
            },
        ),
        (
            "next and opposite exchanged",
            Variant {
                write_pages: |s, b, o, w| {
                    let dart = |n: u32, d: &Dart| {
                        line(n, &Dart { next: d.opposite, opposite: d.next, ..*d }, &listing::third(d.third))
                    };
                    lays_out(Layout { dart, ..AS_ASKED }, s, b, o, w)
                },
                ..RIGHT
            },
        ),
        (
            "maker and other block exchanged",
            Variant {
                write_pages: |s, b, o, w| {
                    let dart = |n: u32, d: &Dart| {
                        let third = match d.third {
                            Third::Critical { other, mut label } => {
                                let maker = std::mem::replace(&mut label.maker, other);
                                Third::Critical { other: maker, label }
                            }
                            third => third,
                        };
                        line(n, d, &listing::third(third))
                    };
                    lays_out(Layout { dart, ..AS_ASKED }, s, b, o, w)
                },
                ..RIGHT
            },
        ),
        (
            "numbers cut to nine digits",
            Variant {
                write_pages: |s, b, o, w| {
                    let dart = |n: u32, d: &Dart| line(n % 1_000_000_000, d, &listing::third(d.third));
                    lays_out(Layout { dart, ..AS_ASKED }, s, b, o, w)
                },
                ..RIGHT
            },
        ),
        (
            "15 for 30",
            Variant {
                write_pages: |s, b, o, w| match Peer.write_pages(s, b, o, w) {
                    30 => 15,
                    number => number,
                },
                ..RIGHT
            },
        ),
        (
            "30 where the pages just fit",
            Variant {
                write_pages: |s, b, o, w| {
                    let mut less = o.to_vec();
                    less.pop();
                    match Peer.write_pages(s, b, &mut less, &mut 0) {
                        30 => 30,
                        _ => Peer.write_pages(s, b, o, w),
                    }
                },
                ..RIGHT
            },
        ),
        (
            "30 for less than a page alone",
            Variant {
                write_pages: |s, b, o, w| match Peer.write_pages(s, b, o, w) {
                    30 if o.len() >= PAGE => 0,
                    number => number,
                },
                ..RIGHT
            },
        ),
        (
            "30 before 2",
            Variant {
                write_pages: |s, b, o, w| match Peer.write_pages(s, b, o, w) {
                    2 if o.len() < PAGE => 30,
                    number => number,
                },
                ..RIGHT
            },
        ),
        (
            "bytes past the pages blanked",
            Variant {
                write_pages: |s, b, o, w| {
                    let number = Peer.write_pages(s, b, o, w);
                    if number == 0 {
                        o[*w as usize..].fill(b' ');
                    }
                    number
                },
                ..RIGHT
            },
        ),
        (
            "as many pages as there is room for",
            Variant {
                write_pages: |s, b, o, w| {
                    let number = Peer.write_pages(s, b, o, w);
                    if number == 30 {
                        let bytes = pages::encode(&image::decode(b).unwrap());
                        let room = o.len() / PAGE * PAGE;
                        o[..room].copy_from_slice(&bytes[..room]);
                    }
                    number
                },
                ..RIGHT
            },
        ),
        (
            "pages counted for bytes",
            Variant {
                write_pages: |s, b, o, w| {
                    let number = Peer.write_pages(s, b, o, w);
                    if number == 0 {
                        *w /= PAGE as u64;
                    }
                    number
                },
                ..RIGHT
            },
        ),
        (
            "any memory written from",
            Variant { write_pages: |s, b, o, w| Peer.write_pages(any_memory(s, b), b, o, w), ..RIGHT },
        ),
    ]
}

/// Memory of the other site taken as one's own.
fn any_memory(site: Site, words: &[u64]) -> Site {
    match words.len() {
        WORDS => Site::Rack,
        VIEWER_WORDS => Site::Viewer,
        _ => site,
    }
}

/// Reads pages that were made right first.
fn reads(site: Site, bytes: &[u8], block: &mut [u64], right: impl Fn(&mut Vec<Vec<u8>>)) -> u32 {
    if bytes.len() % LINE != 0 || bytes.chunks(LINE).any(|line| line[LINE - 1] != b'\n') {
        return Peer.read_pages(site, bytes, block);
    }
    let mut lines: Vec<Vec<u8>> = bytes.chunks_exact(LINE).map(<[u8]>::to_vec).collect();
    right(&mut lines);
    Peer.read_pages(site, &lines.concat(), block)
}

/// Puts text into columns.
fn put(line: &mut [u8], column: usize, width: usize, text: &str, right: bool) {
    let text = if right { format!("{text:>width$}") } else { format!("{text:width$}") };
    line[column..column + width].copy_from_slice(&text.as_bytes()[..width]);
}

/// Spells the numbers of every line in another way, blank ones left out.
fn respelt(lines: &mut [Vec<u8>], spelling: impl Fn(&str) -> String) {
    for line in lines.iter_mut() {
        for column in [0, 10, 20] {
            let text = String::from_utf8_lossy(&line[column..column + 10]).to_string();
            if !text.trim().is_empty() && text.is_ascii() {
                put(line, column, 10, &spelling(&text), true);
            }
        }
    }
}

fn without_zeros(text: &str) -> String {
    let digits = text.trim_matches(' ');
    if !digits.is_empty() && digits.bytes().all(|byte| byte.is_ascii_digit()) {
        digits.trim_start_matches('0').to_string() + if digits.bytes().all(|byte| byte == b'0') { "0" } else { "" }
    } else {
        text.to_string()
    }
}

/// Third links in another spelling.
fn with_thirds(lines: &mut [Vec<u8>], spelling: impl Fn(&str) -> String) {
    for (at, line) in lines.iter_mut().enumerate() {
        let text = String::from_utf8_lossy(&line[32..80]).to_string();
        if at % 60 != 0 && !text.trim().is_empty() && text.is_ascii() {
            put(line, 32, 48, spelling(&text).trim_end(), false);
        }
    }
}

/// The darts' lines in order on as many pages as they take.
fn paged_again(lines: &mut Vec<Vec<u8>>, sort: bool, pages: impl Fn(usize, usize) -> usize) {
    let blank = format!("{:80}\n", "").into_bytes();
    let darts: Vec<(usize, Vec<u8>)> = lines.iter().cloned().enumerate().collect();
    let mut darts: Vec<Vec<u8>> =
        darts.into_iter().filter(|(at, line)| at % 60 != 0 && *line != blank).map(|(_, line)| line).collect();
    if sort {
        darts.sort();
    }
    let count = pages(lines.len() / 60, darts.len());
    let number = lines[0][..10].to_vec();
    let mut again = Vec::new();
    for page in 0..count {
        again.push([&number[..], format!("{:>10}{count:>10}{:50}\n", page + 1, "").as_bytes()].concat());
        let held = darts.iter().skip(59 * page).chain(std::iter::repeat(&blank)).take(59).cloned();
        again.extend(held);
    }
    *lines = again;
}

/// Reads, then changes what was read.
fn reads_then(site: Site, bytes: &[u8], block: &mut [u64], change: impl Fn(&[u64], &mut [u64])) -> u32 {
    let before = block.to_vec();
    let number = Peer.read_pages(site, bytes, block);
    if number == 0 {
        change(&before, block);
    }
    number
}

/// Another number where some block stands on the pages.
fn says(site: Site, bytes: &[u8], block: &mut [u64], number: impl Fn(u32, &Block) -> u32) -> u32 {
    let right = Peer.read_pages(site, &bytes.to_vec(), &mut block.to_vec());
    match pages::decode(bytes, RACK) {
        Some(value) if right > 3 => number(right, &value),
        _ => Peer.read_pages(site, bytes, block),
    }
}

/// Whether some dart is sewn to what is not held.
fn sewn_to_nothing(block: &Block) -> bool {
    block.darts.values().any(|dart| matches!(dart.third, Third::Sewn(to) if !block.darts.contains_key(&to)))
}

fn zeros(block: &Block) -> bool {
    block.darts.values().any(|dart| dart.next == 0 || dart.opposite == 0)
}

/// The greatest number of labels that a test picks.
fn greatest(block: &[u64], own_alone: bool) -> Option<u64> {
    let darts = block[RECORD..].chunks_exact(RECORD).filter(|dart| dart[3] > 1);
    darts
        .map(|dart| dart[4])
        .filter(|code| !own_alone || code >> 44 == block[0])
        .map(|code| code >> 12 & 0xffff_ffff)
        .max()
}

fn readers() -> Vec<(&'static str, Variant)> {
    vec![
        (
            "zeros in front taken",
            Variant { read_pages: |s, p, b| reads(s, p, b, |lines| respelt(lines, without_zeros)), ..RIGHT },
        ),
        (
            "signs taken",
            Variant {
                read_pages: |s, p, b| {
                    reads(s, p, b, |l| respelt(l, |text| text.replace(['+', '-'], " ").trim().into()))
                },
                ..RIGHT
            },
        ),
        (
            "numbers anywhere in their columns",
            Variant {
                read_pages: |s, p, b| reads(s, p, b, |l| respelt(l, |text| text.trim_matches(' ').into())),
                ..RIGHT
            },
        ),
        (
            "tabs taken",
            Variant {
                read_pages: |s, p, b| {
                    reads(s, p, b, |l| {
                        l.iter_mut().flatten().filter(|byte| **byte == b'\t').for_each(|byte| *byte = b' ')
                    })
                },
                ..RIGHT
            },
        ),
        (
            "zeros in front taken in third links",
            Variant {
                read_pages: |s, p, b| {
                    reads(s, p, b, |l| {
                        with_thirds(l, |text| {
                            let spelt = text.replace(' ', " \u{1}").replace('.', ".\u{1}");
                            let parts = spelt.split('\u{1}').map(|part| {
                                let digits = part.trim_end_matches(['.', ' ']);
                                without_zeros(digits) + &part[digits.len()..]
                            });
                            parts.collect()
                        })
                    })
                },
                ..RIGHT
            },
        ),
        (
            "more blanks in third links taken",
            Variant {
                read_pages: |s, p, b| {
                    reads(s, p, b, |l| {
                        with_thirds(l, |text| {
                            text.split(' ').filter(|word| !word.is_empty()).collect::<Vec<_>>().join(" ")
                        })
                    })
                },
                ..RIGHT
            },
        ),
        (
            "what is behind free not looked at",
            Variant {
                read_pages: |s, p, b| {
                    reads(s, p, b, |l| {
                        with_thirds(l, |text| if text.starts_with("free ") { "free".into() } else { text.into() })
                    })
                },
                ..RIGHT
            },
        ),
        (
            "the last column not looked at",
            Variant {
                read_pages: |s, p, b| reads(s, p, b, |l| l.iter_mut().for_each(|line| line[79] = b' ')),
                ..RIGHT
            },
        ),
        (
            "upper case taken",
            Variant {
                read_pages: |s, p, b| reads(s, p, b, |l| l.iter_mut().for_each(|line| line.make_ascii_lowercase())),
                ..RIGHT
            },
        ),
        (
            "line feeds not looked at",
            Variant {
                read_pages: |s, p, b| {
                    let mut bytes = p.to_vec();
                    bytes.iter_mut().skip(80).step_by(LINE).for_each(|byte| *byte = b'\n');
                    Peer.read_pages(s, &bytes, b)
                },
                ..RIGHT
            },
        ),
        (
            "bytes past the last page not looked at",
            Variant {
                read_pages: |s, p, b| Peer.read_pages(s, &p[..(p.len() / PAGE * PAGE).max(p.len().min(1))], b),
                ..RIGHT
            },
        ),
        (
            "blanks behind the first line's numbers not looked at",
            Variant {
                read_pages: |s, p, b| {
                    reads(s, p, b, |l| l.iter_mut().step_by(60).for_each(|line| line[30..80].fill(b' ')))
                },
                ..RIGHT
            },
        ),
        (
            "blanks before a third link not looked at",
            Variant {
                read_pages: |s, p, b| reads(s, p, b, |l| l.iter_mut().for_each(|line| line[30..32].fill(b' '))),
                ..RIGHT
            },
        ),
        (
            "another block on later pages taken",
            Variant {
                read_pages: |s, p, b| {
                    reads(s, p, b, |l| {
                        let number = l.first().map_or(Vec::new(), |line| line[..10].to_vec());
                        l.iter_mut().step_by(60).for_each(|line| line[..10].copy_from_slice(&number));
                    })
                },
                ..RIGHT
            },
        ),
        (
            "the last page's block",
            Variant {
                read_pages: |s, p, b| {
                    reads(s, p, b, |l| {
                        let number = l.iter().step_by(60).next_back().map_or(Vec::new(), |line| line[..10].to_vec());
                        l.iter_mut().step_by(60).for_each(|line| line[..10].copy_from_slice(&number));
                    })
                },
                ..RIGHT
            },
        ),
        (
            "page numbers not looked at",
            Variant {
                read_pages: |s, p, b| {
                    reads(s, p, b, |l| {
                        l.iter_mut()
                            .step_by(60)
                            .zip(1..)
                            .for_each(|(line, page)| put(line, 10, 10, &format!("{page}"), true))
                    })
                },
                ..RIGHT
            },
        ),
        (
            "page counts not looked at",
            Variant {
                read_pages: |s, p, b| {
                    reads(s, p, b, |l| {
                        let count = (l.len() / 60).to_string();
                        l.iter_mut().step_by(60).for_each(|line| put(line, 20, 10, &count, true))
                    })
                },
                ..RIGHT
            },
        ),
        (
            "pages in any order",
            Variant {
                read_pages: |s, p, b| {
                    reads(s, p, b, |l| {
                        let mut pages: Vec<Vec<Vec<u8>>> = l.chunks(60).map(<[Vec<u8>]>::to_vec).collect();
                        pages.sort();
                        *l = pages.concat();
                    })
                },
                ..RIGHT
            },
        ),
        ("serials in any order", Variant { read_pages: |s, p, b| reads(s, p, b, |l| sorted(l)), ..RIGHT }),
        (
            "blank lines between darts taken",
            Variant { read_pages: |s, p, b| reads(s, p, b, |l| closed_up(l, |pages, _| pages)), ..RIGHT },
        ),
        (
            "pages without a dart taken",
            Variant {
                read_pages: |s, p, b| reads(s, p, b, |l| closed_up(l, |_, darts| darts.div_ceil(59).max(1))),
                ..RIGHT
            },
        ),
        (
            "a block of 16 and more taken",
            Variant {
                read_pages: |s, p, b| {
                    reads(s, p, b, |l| {
                        if l.first().is_some_and(|line| line.starts_with(b"        16")) {
                            l.iter_mut().step_by(60).for_each(|line| line[8..10].copy_from_slice(b"15"));
                        }
                    })
                },
                ..RIGHT
            },
        ),
        (
            "4,096 darts of a viewer",
            Variant {
                read_pages: |s, p, b| match Peer.read_pages(s, p, b) {
                    3 if s == Site::Viewer => Peer.read_pages(Site::Rack, p, &mut vec![0; WORDS]),
                    number => number,
                },
                ..RIGHT
            },
        ),
        ("3 from 256 on in a viewer", Variant { read_pages: |s, p, b| full_is_3(s, Site::Viewer, p, b), ..RIGHT }),
        ("3 from 4,096 on", Variant { read_pages: |s, p, b| full_is_3(s, Site::Rack, p, b), ..RIGHT }),
        ("the counter 0", Variant { read_pages: |s, p, b| reads_then(s, p, b, |_, after| after[1] = 0), ..RIGHT }),
        (
            "the counter as it was",
            Variant { read_pages: |s, p, b| reads_then(s, p, b, |before, after| after[1] = before[1]), ..RIGHT },
        ),
        (
            "the counter the greatest own number",
            Variant {
                read_pages: |s, p, b| reads_then(s, p, b, |_, after| after[1] = greatest(after, true).unwrap_or(0)),
                ..RIGHT
            },
        ),
        (
            "the counter past all labels",
            Variant {
                read_pages: |s, p, b| {
                    reads_then(s, p, b, |_, after| after[1] = greatest(after, false).map_or(0, |number| number + 1))
                },
                ..RIGHT
            },
        ),
        (
            "the counter 1 without own labels",
            Variant {
                read_pages: |s, p, b| reads_then(s, p, b, |_, after| after[1] = greatest(after, true).unwrap_or(0) + 1),
                ..RIGHT
            },
        ),
        (
            "points as they were",
            Variant {
                read_pages: |s, p, b| {
                    reads_then(s, p, b, |before, after| {
                        let held = RECORD * (1 + after[2] as usize);
                        for at in (RECORD..held).filter(|at| at % RECORD > 4) {
                            after[at] = before[at];
                        }
                    })
                },
                ..RIGHT
            },
        ),
        (
            "words behind the darts as they were",
            Variant {
                read_pages: |s, p, b| {
                    reads_then(s, p, b, |before, after| {
                        let held = RECORD * (1 + after[2] as usize);
                        after[held..].copy_from_slice(&before[held..]);
                    })
                },
                ..RIGHT
            },
        ),
        (
            "2 of the memory read into",
            Variant {
                read_pages: |s, p, b| match Peer.save_file(s, b, &mut vec![0; 200_712], &mut 0) {
                    2 => 2,
                    _ => Peer.read_pages(s, p, b),
                },
                ..RIGHT
            },
        ),
        (
            "a counter of 2^32 taken for 0",
            Variant {
                read_pages: |s, p, b| {
                    says(
                        s,
                        p,
                        b,
                        |right, block| {
                            if right == 7 && sound::least_counter(block).is_none() {
                                0
                            } else {
                                right
                            }
                        },
                    )
                },
                ..RIGHT
            },
        ),
        (
            "7 for the counter before 5",
            Variant {
                read_pages: |s, p, b| {
                    says(
                        s,
                        p,
                        b,
                        |right, block| {
                            if right >= 5 && sound::least_counter(block).is_none() {
                                7
                            } else {
                                right
                            }
                        },
                    )
                },
                ..RIGHT
            },
        ),
        (
            "7 for the counter before 6",
            Variant {
                read_pages: |s, p, b| {
                    says(
                        s,
                        p,
                        b,
                        |right, block| {
                            if right >= 6 && sound::least_counter(block).is_none() {
                                7
                            } else {
                                right
                            }
                        },
                    )
                },
                ..RIGHT
            },
        ),
        (
            "3 for the counter",
            Variant {
                read_pages: |s, p, b| {
                    says(
                        s,
                        p,
                        b,
                        |right, block| {
                            if right == 7 && sound::least_counter(block).is_none() {
                                3
                            } else {
                                right
                            }
                        },
                    )
                },
                ..RIGHT
            },
        ),
        (
            "5 for what is sewn to nothing held",
            Variant {
                read_pages: |s, p, b| says(s, p, b, |right, block| if sewn_to_nothing(block) { 5 } else { right }),
                ..RIGHT
            },
        ),
        (
            "6 for what is sewn to nothing held, before 5",
            Variant {
                read_pages: |s, p, b| says(s, p, b, |right, block| if sewn_to_nothing(block) { 6 } else { right }),
                ..RIGHT
            },
        ),
        (
            "3 for what is sewn to nothing held",
            Variant {
                read_pages: |s, p, b| {
                    says(s, p, b, |right, block| if right == 6 && sewn_to_nothing(block) { 3 } else { right })
                },
                ..RIGHT
            },
        ),
        (
            "3 for next or opposite 0",
            Variant {
                read_pages: |s, p, b| says(s, p, b, |right, block| if zeros(block) { 3 } else { right }),
                ..RIGHT
            },
        ),
        (
            "3 for next or opposite not held",
            Variant {
                read_pages: |s, p, b| {
                    says(s, p, b, |right, block| {
                        let held = |serial: u32| serial == 0 || block.darts.contains_key(&serial);
                        if block.darts.values().all(|dart| held(dart.next) && held(dart.opposite)) {
                            right
                        } else {
                            3
                        }
                    })
                },
                ..RIGHT
            },
        ),
        (
            "6 for a label twice",
            Variant {
                read_pages: |s, p, b| {
                    says(s, p, b, |right, block| {
                        let critical = block.darts.values().filter(|dart| dart.label().is_some()).count();
                        if right == 7 && block.labels().len() < critical {
                            6
                        } else {
                            right
                        }
                    })
                },
                ..RIGHT
            },
        ),
        (
            "3 for a face critical with its own block",
            Variant {
                read_pages: |s, p, b| {
                    says(s, p, b, |right, block| {
                        let own =
                            |dart: &Dart| matches!(dart.third, Third::Critical { other, .. } if other == block.number);
                        if block.darts.values().any(own) {
                            3
                        } else {
                            right
                        }
                    })
                },
                ..RIGHT
            },
        ),
        (
            "a refusal that has emptied the block",
            Variant {
                read_pages: |s, p, b| {
                    let number = Peer.read_pages(s, p, b);
                    if number > 3 {
                        b.fill(0);
                    }
                    number
                },
                ..RIGHT
            },
        ),
        ("any memory read into", Variant { read_pages: |s, p, b| Peer.read_pages(any_memory(s, b), p, b), ..RIGHT }),
        (
            "3 before 1",
            Variant {
                read_pages: |s, p, b| match Peer.read_pages(s, p, b) {
                    1 if p.is_empty() => 3,
                    number => number,
                },
                ..RIGHT
            },
        ),
    ]
}

fn sorted(lines: &mut Vec<Vec<u8>>) {
    if lines.len() % 60 == 0 && !lines.is_empty() {
        paged_again(lines, true, |pages, _| pages);
    }
}

fn closed_up(lines: &mut Vec<Vec<u8>>, pages: impl Fn(usize, usize) -> usize) {
    if lines.len() % 60 == 0 && !lines.is_empty() {
        paged_again(lines, false, pages);
    }
}

/// Says 3 to the pages of a full block of one site.
fn full_is_3(site: Site, of: Site, pages: &[u8], block: &mut [u64]) -> u32 {
    let mut after = block.to_vec();
    match Peer.read_pages(site, pages, &mut after) {
        0 if site == of && after[2] as usize == site.limits().darts => 3,
        _ => Peer.read_pages(site, pages, block),
    }
}

/// The gate's records of pages, the short ones first: the case, its answer, what is lent afterwards.
fn records() -> Vec<(Case, u32, Case)> {
    let (gate, _) = vectors::pages_gate(1, 60);
    let calls = all_calls();
    let mut rest = Reader { bytes: &gate.input };
    let mut found = Vec::new();
    while !rest.bytes.is_empty() {
        let call = calls[usize::from(rest.take(1)[0])];
        let record = rest.bytes();
        found.push((record.len(), parse(call, &record)));
    }
    found.sort_by_key(|(length, _)| *length);
    found.into_iter().map(|(_, record)| record).collect()
}

#[test]
fn misprints_are_told_apart() {
    let records = records();
    let told_apart = |variant: &Variant| {
        records.iter().any(|(case, answer, after)| {
            let mut played = case.clone();
            played.run(variant) != *answer || played != *after
        })
    };
    assert!(!told_apart(&RIGHT), "the right calls are accused");
    let as_asked = Variant { write_pages: |s, b, o, w| lays_out(AS_ASKED, s, b, o, w), ..RIGHT };
    assert!(!told_apart(&as_asked), "the layout is not the asked one");
    let read_again = Variant { read_pages: |s, p, b| reads(s, p, b, |_| ()), ..RIGHT };
    assert!(!told_apart(&read_again), "the right reader is accused");
    let all = writers().into_iter().chain(readers());
    let missed: Vec<&str> = all.filter(|(_, variant)| !told_apart(variant)).map(|(name, _)| name).collect();
    assert!(missed.is_empty(), "not told apart: {missed:?}");
}
