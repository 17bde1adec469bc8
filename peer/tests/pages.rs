//! A block on the wall: figures, round trips, readings, every byte of a page.

mod common;

use common::{p, pillow, pillows};
use peer::calls::{read_pages, write_pages};
use peer::cases::{self, Case};
use peer::damage::pages as damaged;
use peer::generate::{self, Size};
use peer::image::{self, VIEWER_WORDS, WORDS};
use peer::lent::{Core, Peer};
use peer::pages::{self, LINE, PAGE};
use peer::plain::Plain;
use peer::rng::Rng;
use peer::value::{Block, Label, No, Point, Site, Third, MAX_POSITION, RACK, VIEWER};
use peer::vectors;

const ROOM: usize = 340_200;

fn label(maker: u8, number: u32, position: u16) -> Label {
    Label { maker, number, position }
}

/// The block that comes back from its pages: points zero, the least counter.
fn on_the_wall(block: &Block) -> Block {
    let own = block.labels().into_keys().filter(|label| label.maker == block.number).map(|label| label.number);
    let mut back = block.clone();
    back.counter = own.max().map_or(0, |number| number + 1);
    back.darts.values_mut().for_each(|dart| dart.point = Point::default());
    back
}

/// P's pages with some text in place of other, which has to be there.
fn with(from: &str, to: &str) -> Vec<u8> {
    let text = String::from_utf8(pages::encode(&p())).unwrap();
    assert!(text.contains(from) && from.len() == to.len(), "{from:?} {to:?}");
    text.replacen(from, to, 1).into_bytes()
}

/// P's pages with the third link of the first dart in place of `free`.
fn with_third(text: &str) -> Vec<u8> {
    with(&format!("{:48}", "free"), &format!("{text:48}"))
}

/// P with the links of the first dart replaced, as pages.
fn p_with(serial: u32, next: u32, opposite: u32) -> Vec<u8> {
    let line = |serial: u32, next: u32, opposite: u32| format!("{serial:>10}{next:>10}{opposite:>10}");
    with(&line(1, 2, 6), &line(serial, next, opposite))
}

#[test]
fn the_page_of_p() {
    let mut lines = vec!["         0         1         1".to_string()];
    lines.extend(
        ["1         2         6", "2         3         5", "3         1         4"]
            .map(|l| format!("         {l}  free")),
    );
    lines.extend(
        ["4         5         3", "5         6         2", "6         4         1"]
            .map(|l| format!("         {l}  free")),
    );
    lines.resize(60, String::new());
    let page: String = lines.iter().map(|line| line.clone() + &" ".repeat(80 - line.len()) + "\n").collect();
    assert_eq!(page.len(), 4_860);
    assert_eq!(write_pages(&p(), ROOM), Ok(page.clone().into_bytes()));
    assert_eq!(read_pages(RACK, page.as_bytes()), Ok(on_the_wall(&p())));
    assert_eq!(write_pages(&p(), 4_860).map(|bytes| bytes.len()), Ok(4_860));
    assert_eq!(write_pages(&p(), 4_859), Err(No(30)));
    assert_eq!(write_pages(&p(), 0), Err(No(30)));
}

#[test]
fn pages_are_filled_in_turn() {
    for (darts, count) in [(2, 1), (58, 1), (60, 2), (118, 2), (120, 3), (236, 4), (256, 5), (4096, 70)] {
        let block = pillow(darts / 2, 7, 1);
        let bytes = write_pages(&block, ROOM).unwrap();
        assert_eq!(bytes.len(), count * 4_860, "{darts} darts");
        assert_eq!(bytes.len(), write_pages(&block, bytes.len()).unwrap().len());
        assert_eq!(write_pages(&block, bytes.len() - 1), Err(No(30)));
        let lines: Vec<&[u8]> = bytes.chunks_exact(LINE).collect();
        for (at, line) in lines.iter().enumerate() {
            let dart = 59 * (at / 60) + at % 60;
            let text = String::from_utf8(line.to_vec()).unwrap();
            if at % 60 == 0 {
                assert_eq!(text, format!("{:>10}{:>10}{count:>10}{:50}\n", 7, at / 60 + 1, ""));
            } else if dart <= darts {
                assert_eq!(text[..10].trim(), dart.to_string());
            } else {
                assert_eq!(text, format!("{:80}\n", ""));
            }
        }
        assert_eq!(read_pages(RACK, &bytes), Ok(on_the_wall(&block)));
    }
    assert_eq!(write_pages(&pillow(2048, 0, 1), ROOM).unwrap().len(), 340_200);
}

#[test]
fn an_empty_block_gives_one_page() {
    let empty = Block { counter: 9, ..Block::empty(12) };
    let page = format!("        12         1         1{:50}\n", "") + &format!("{:80}\n", "").repeat(59);
    assert_eq!(write_pages(&empty, PAGE), Ok(page.clone().into_bytes()));
    assert_eq!(read_pages(RACK, page.as_bytes()), Ok(Block::empty(12)));
    assert_eq!(read_pages(VIEWER, page.as_bytes()), Ok(Block::empty(12)));
}

#[test]
fn third_links_stand_as_in_the_listing() {
    let mut block = damaged::at_the_top(&pillow(2, 11, 1));
    for (position, dart) in (0..).zip(block.darts.values_mut()) {
        dart.third = Third::Critical { other: 15, label: label(15, u32::MAX, MAX_POSITION - position) };
    }
    let bytes = write_pages(&block, ROOM).unwrap();
    let links = "4294967292".to_string() + "4294967293" + "4294967295";
    let first = format!("{links}  {:48}", "crit 15 15.4294967295.4095");
    assert_eq!(String::from_utf8_lossy(&bytes[LINE..LINE + 80]), first);
    assert_eq!(read_pages(RACK, &bytes), Ok(on_the_wall(&block)));
    let mut sewn = damaged::at_the_top(&pillow(1, 0, 1));
    let darts: Vec<u32> = sewn.darts.keys().copied().collect();
    sewn.darts.get_mut(&darts[0]).unwrap().third = Third::Sewn(darts[1]);
    sewn.darts.get_mut(&darts[1]).unwrap().third = Third::Sewn(darts[0]);
    let bytes = write_pages(&sewn, ROOM).unwrap();
    assert_eq!(String::from_utf8_lossy(&bytes[LINE + 30..LINE + 80]), format!("  {:48}", "sewn 4294967295"));
    assert_eq!(read_pages(RACK, &bytes), Ok(on_the_wall(&sewn)));
}

#[test]
fn blocks_come_back_with_the_same_links() {
    let mut viewers = 0;
    for seed in 0..200 {
        let mut rng = Rng::new(seed);
        let size = if seed % 40 == 0 { Size::Large } else { Size::Small };
        for block in generate::mesh(&mut rng, size).blocks {
            let bytes = write_pages(&block, ROOM).unwrap();
            let back = read_pages(RACK, &bytes).unwrap();
            assert_eq!(back, on_the_wall(&block));
            assert!(peer::sound::is_sound(&back, RACK));
            assert_eq!(write_pages(&back, bytes.len()), Ok(bytes.clone()));
            if block.darts.len() <= 256 {
                viewers += 1;
                assert_eq!(read_pages(VIEWER, &bytes), Ok(back));
            }
        }
    }
    assert!(viewers > 100);
}

/// What is read is what is written, so nothing else is taken.
#[test]
fn pages_that_are_read_are_written_back() {
    let mut served = 0;
    for seed in 0..150 {
        let mut rng = Rng::new(seed);
        let mesh = generate::mesh(&mut rng, Size::Small);
        for (way, case) in damaged::read_pages(&mut rng, Site::Rack, &mesh.blocks, &mesh.blocks) {
            let Case::ReadPages { pages, .. } = case else { continue };
            if let Ok(block) = read_pages(RACK, &pages) {
                served += 1;
                assert!(peer::sound::is_sound(&block, RACK), "{way}");
                assert_eq!(write_pages(&block, ROOM), Ok(pages), "{way}");
            }
        }
    }
    assert!(served > 300, "{served}");
}

#[test]
fn numbers_are_spelt_in_one_way() {
    let head = |block: &str, page: &str, count: &str| {
        with("         0         1         1", &format!("{block:>10}{page:>10}{count:>10}"))
    };
    assert!(read_pages(RACK, &head("15", "1", "1")).is_ok());
    for (block, page, count) in [
        ("16", "1", "1"),
        ("00", "1", "1"),
        ("+0", "1", "1"),
        ("-0", "1", "1"),
        ("0 ", "1", "1"),
        ("", "1", "1"),
        ("0", "0", "1"),
        ("0", "2", "1"),
        ("0", "2", "2"),
        ("0", "01", "1"),
        ("0", "1", "0"),
        ("0", "1", "2"),
        ("0", "1", "01"),
        ("0", "1", "+1"),
        ("0", "1", ""),
    ] {
        assert_eq!(read_pages(RACK, &head(block, page, count)), Err(No(3)), "{block:?} {page:?} {count:?}");
    }
    let line = |serial: &str, next: &str, opposite: &str| {
        with("         1         2         6", &format!("{serial:>10}{next:>10}{opposite:>10}"))
    };
    for wrong in ["01", "+1", "-0", "-1", "1 ", "\t1", "", "1a", "4294967296", "9999999999", "1 1", "0x1", "1.0"] {
        for pages in [line(wrong, "2", "6"), line("1", wrong, "6"), line("1", "2", wrong)] {
            assert_eq!(read_pages(RACK, &pages), Err(No(3)), "{wrong:?}");
        }
    }
    // In another's columns.
    assert_eq!(read_pages(RACK, &with("         1         2         6", "1         2         6         ")), Err(No(3)));
    assert_eq!(read_pages(RACK, &with("         1         2         6", "         1        2          6")), Err(No(3)));
}

#[test]
fn serials_ascend_and_links_are_held() {
    assert_eq!(read_pages(RACK, &p_with(0, 2, 6)), Err(No(3)));
    assert_eq!(read_pages(RACK, &p_with(2, 2, 6)), Err(No(3)));
    assert_eq!(read_pages(RACK, &p_with(3, 2, 6)), Err(No(3)));
    for wrong in [0, 7, u32::MAX] {
        assert_eq!(read_pages(RACK, &p_with(1, wrong, 6)), Err(No(5)));
        assert_eq!(read_pages(RACK, &p_with(1, 2, wrong)), Err(No(5)));
        assert_eq!(read_pages(RACK, &with_third(&format!("sewn {wrong}"))), Err(No(6)));
    }
    // Held, but wrong: two darts with one next; opposite to itself; sewn to itself; a face of two kinds.
    assert_eq!(read_pages(RACK, &p_with(1, 3, 6)), Err(No(5)));
    assert_eq!(read_pages(RACK, &p_with(1, 2, 1)), Err(No(5)));
    assert_eq!(read_pages(RACK, &with_third("sewn 1")), Err(No(6)));
    assert_eq!(read_pages(RACK, &with_third("sewn 2")), Err(No(6)));
    assert_eq!(read_pages(RACK, &with_third("crit 1 0.0.0")), Err(No(6)));
    // 5 comes before 6, and 3 before both.
    let both = |line: &str, third: &str| {
        with(&format!("         1         2         6  {:48}", "free"), &format!("{line}  {third:48}"))
    };
    assert_eq!(read_pages(RACK, &both("         1         0         6", "sewn 0")), Err(No(5)));
    assert_eq!(read_pages(RACK, &both("         1         0         6", "crit 1 0.0.4096")), Err(No(3)));
}

#[test]
fn third_links_are_spelt_in_one_way() {
    for text in damaged::THIRDS.iter().chain(damaged::MORE_THIRDS) {
        let wanted = match *text {
            "free" => Ok(on_the_wall(&p())),
            // The others of the face are free.
            "sewn 0" | "sewn 4294967295" | "crit 15 15.4294967295.4095" => Err(No(6)),
            _ => Err(No(3)),
        };
        assert_eq!(read_pages(RACK, &with_third(text)), wanted, "{text:?}");
    }
}

#[test]
fn labels_and_the_least_counter() {
    let critical = |number: u8, labels: [Label; 2]| {
        let mut block = pillow(1, number, 1);
        for (dart, label) in block.darts.values_mut().zip(labels) {
            dart.third = Third::Critical { other: 4, label };
        }
        read_pages(RACK, &pages::encode(&block)).map(|block| block.counter)
    };
    assert_eq!(critical(3, [label(2, 7, 0), label(5, u32::MAX, 0)]), Ok(0));
    assert_eq!(critical(3, [label(3, 0, 0), label(2, 9, 0)]), Ok(1));
    assert_eq!(critical(3, [label(3, 7, 0), label(3, 5, 9)]), Ok(8));
    assert_eq!(critical(3, [label(3, u32::MAX - 1, 0), label(5, 5, 9)]), Ok(u32::MAX));
    assert_eq!(critical(3, [label(3, u32::MAX, 0), label(5, 5, 9)]), Err(No(7)));
    assert_eq!(critical(5, [label(3, u32::MAX, 0), label(5, 5, 9)]), Ok(6));
    // A label twice; the block itself.
    assert_eq!(critical(3, [label(2, 7, 0), label(2, 7, 0)]), Err(No(7)));
    assert_eq!(critical(4, [label(2, 7, 0), label(2, 7, 1)]), Err(No(7)));
    // 5 and 6 come before 7.
    let mut block = pillow(2, 3, 1);
    for (dart, position) in block.darts.values_mut().zip(0..) {
        dart.third = Third::Critical { other: 4, label: label(3, u32::MAX, position) };
    }
    assert_eq!(read_pages(RACK, &pages::encode(&block)), Err(No(7)));
    let mut other = block.clone();
    other.darts.get_mut(&1).unwrap().third = Third::Free;
    assert_eq!(read_pages(RACK, &pages::encode(&other)), Err(No(6)));
    other.darts.get_mut(&1).unwrap().next = 1;
    assert_eq!(read_pages(RACK, &pages::encode(&other)), Err(No(5)));
}

#[test]
fn lines_and_pages_are_as_the_writer_gives_them() {
    let good = pages::encode(&p());
    let three = |bytes: &[u8]| assert_eq!(read_pages(RACK, bytes), Err(No(3)));
    three(&[]);
    three(&good[..4_859]);
    three(&[&good[..], b"\n"].concat());
    three(&good[..LINE * 59]);
    three(&[&good[..], &[b' '; 80], b"\n"].concat());
    let lines = |change: &dyn Fn(&mut Vec<Vec<u8>>), block: &Block| {
        let mut lines: Vec<Vec<u8>> = pages::encode(block).chunks_exact(LINE).map(<[u8]>::to_vec).collect();
        change(&mut lines);
        read_pages(RACK, &lines.concat())
    };
    // A blank line before a dart; the last dart's line blanked, so that links lead to no dart.
    assert_eq!(lines(&|l| l.swap(6, 7), &p()), Err(No(3)));
    assert_eq!(lines(&|l| l[1..8].rotate_right(1), &p()), Err(No(3)));
    assert_eq!(lines(&|l| l[6] = l[7].clone(), &p()), Err(No(5)));
    assert_eq!(lines(&|l| l[1] = l[7].clone(), &p()), Err(No(3)));
    // Darts in another order, and one twice.
    assert_eq!(lines(&|l| l.swap(1, 2), &p()), Err(No(3)));
    assert_eq!(lines(&|l| l[7] = l[6].clone(), &p()), Err(No(3)));
    let two = pillows(&[10]).remove(0);
    assert!(lines(&|_| (), &two).is_ok());
    assert_eq!(lines(&|l| l.rotate_left(60), &two), Err(No(3)));
    assert_eq!(lines(&|l| l.truncate(60), &two), Err(No(3)));
    assert_eq!(lines(&|l| l[60][9] = b'1', &two), Err(No(3)));
    assert_eq!(lines(&|l| l[60][19] = b'1', &two), Err(No(3)));
    assert_eq!(lines(&|l| l[0][29] = b'3', &two), Err(No(3)));
    // The last page gone, and the count with it: 59 darts, one of whose opposites is not held.
    let one_page = |l: &mut Vec<Vec<u8>>| {
        l.truncate(60);
        l[0][29] = b'1';
    };
    assert_eq!(lines(&one_page, &two), Err(No(5)));
    // A page without a dart behind the others, and in front of them.
    let blank_page = |l: &mut Vec<Vec<u8>>| {
        let mut page = l[..60].to_vec();
        page[1..].fill(l[59].clone());
        page[0][19] = b'2';
        l.extend(page);
        l[0][29] = b'2';
        l[60][29] = b'2';
    };
    assert_eq!(lines(&blank_page, &p()), Err(No(3)));
    assert_eq!(lines(&blank_page, &Block::empty(3)), Err(No(3)));
    for count in [1, 59] {
        let odd = damaged::first_darts(&pillow(40, 0, 1), count);
        assert_eq!(read_pages(RACK, &pages::encode(&odd)), Err(No(5)), "{count}");
    }
}

#[test]
fn a_block_on_the_wall_has_as_many_darts_as_its_keeper_can_hold() {
    let of = |darts: usize| pages::encode(&damaged::first_darts(&pillow(darts.div_ceil(2), 0, 1), darts));
    assert!(read_pages(RACK, &of(4096)).is_ok());
    assert_eq!(read_pages(RACK, &of(4097)), Err(No(3)));
    assert_eq!(read_pages(RACK, &of(4098)), Err(No(3)));
    assert_eq!(of(4096).len(), of(4130).len());
    assert_eq!(read_pages(RACK, &of(4132)), Err(No(3)));
    assert!(read_pages(VIEWER, &of(256)).is_ok());
    assert_eq!(read_pages(VIEWER, &of(257)), Err(No(3)));
    assert_eq!(read_pages(VIEWER, &of(258)), Err(No(3)));
    assert_eq!(read_pages(RACK, &of(257)), Err(No(5)));
    assert!(read_pages(RACK, &of(258)).is_ok());
}

/// Memory, lent bytes and the order of 1, 2, 30 and 1, 3.
#[test]
fn memory_and_room() {
    for (site, words) in [(Site::Rack, WORDS), (Site::Viewer, VIEWER_WORDS)] {
        let memory = image::encode_at(site, &p());
        let good = pages::encode(&p());
        let (mut out, mut written) = (vec![7; PAGE + 3], 99);
        assert_eq!(Peer.write_pages(site, &memory, &mut out, &mut written), 0);
        assert_eq!((&out[..PAGE], &out[PAGE..], written), (&good[..], &[7; 3][..], PAGE as u64));
        let refused = |words: &[u64], room: usize| {
            let (mut out, mut written) = (vec![7; room], 99);
            let number = Peer.write_pages(site, words, &mut out, &mut written);
            assert!(out.iter().all(|byte| *byte == 7) && written == 99);
            number
        };
        let mut broken = memory.clone();
        broken[9] = 9;
        assert_eq!(refused(&memory[1..], 0), 1);
        assert_eq!(refused(&vec![0; if words == WORDS { VIEWER_WORDS } else { WORDS }], PAGE), 1);
        assert_eq!(refused(&broken, 0), 2);
        assert_eq!(refused(&memory, PAGE - 1), 30);
        // Any words are good memory to read into; 2 is not asked.
        let mut noise = vec![u64::MAX; words];
        assert_eq!(Peer.read_pages(site, &good[1..], &mut noise), 3);
        assert!(noise.iter().all(|word| *word == u64::MAX));
        assert_eq!(Peer.read_pages(site, &good, &mut noise), 0);
        assert_eq!(noise, image::encode_at(site, &on_the_wall(&p())));
        assert_eq!(Peer.read_pages(site, &[], &mut noise[1..]), 1);
    }
}

/// Every byte of a page in turn: nothing but the page itself gives its block, and both versions say the same.
#[test]
fn every_byte_of_a_page_counts() {
    let mut block = p();
    for (serial, position) in [(1, 5), (2, 6), (3, 7)] {
        block.darts.get_mut(&serial).unwrap().third = Third::Critical { other: 12, label: label(0, 34, position) };
    }
    let site = Site::Viewer;
    let good = pages::encode(&block);
    let lent = vec![0; VIEWER_WORDS];
    let mut rng = Rng::new(7);
    let mut served = 0;
    for at in 0..good.len() {
        // Lines 9 to 58 are blank like the others.
        if (9 * LINE..58 * LINE).contains(&at) && !rng.one_in(20) {
            continue;
        }
        let any = rng.bits() as u8;
        for byte in [b' ', b'0', b'1', b'9', b'.', b'\n', b'\t', b'f', good[at] ^ 0x20, good[at] ^ 1, any] {
            let mut pages = good.clone();
            pages[at] = byte;
            let case = Case::ReadPages { site, pages: pages.clone(), block: lent.clone() };
            let answer = cases::compare(&case, &Plain, &Peer).unwrap();
            if byte != good[at] && answer == 0 {
                served += 1;
                assert_eq!(pages::encode(&read_pages(VIEWER, &pages).unwrap()), pages);
            }
        }
    }
    // The block's number, positions and numbers of labels, the other block of none.
    assert!(served > 5, "{served}");
}

/// All that is made by hand, and full blocks of every kind.
#[test]
fn plain_equals_value_on_pages() {
    for call in peer::cases::CALLS_ON_PAGES {
        for case in vectors::limits(call) {
            cases::compare(&case, &Plain, &Peer).unwrap();
        }
    }
    for shuffled in [false, true] {
        let block = peer::scenes::hexahedra(shuffled);
        let numbers: [fn(u32) -> u32; 2] = [|number| number, |number| number.wrapping_mul(2_654_435_761)];
        let all = numbers.map(|number| peer::scenes::critical(block.clone(), usize::MAX, number));
        for block in [block.clone(), damaged::at_the_top(&block)].iter().chain(&all) {
            let pages = pages::encode(block);
            let (out, memory) = (vec![1; pages.len()], image::encode(block));
            let write = Case::WritePages { site: Site::Rack, block: memory.clone(), out, written: 0 };
            assert_eq!(cases::compare(&write, &Plain, &Peer), Ok(0));
            let read = Case::ReadPages { site: Site::Rack, pages, block: memory };
            assert_eq!(cases::compare(&read, &Plain, &Peer), Ok(0));
        }
    }
}
