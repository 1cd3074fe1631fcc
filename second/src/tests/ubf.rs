use crate::flat;
use crate::refusal::Refusal;
use crate::ubf::{self, Fields};

fn fields<'a>(image: &'a [u8]) -> Fields<'a> {
    Fields {
        number: 1,
        address: 0x8000,
        start: 0x100,
        model: b"ATGM331C",
        version: b"V2.4.2.0",
        file_name: b"Uranus2.bin",
        date: b"2013-12-11 09:44:52",
        image,
    }
}

fn block(image: &[u8]) -> Vec<u8> {
    let mut out = vec![7; 0x100 + image.len() + 4];
    let needed = ubf::write(&fields(image), &mut out).unwrap();
    assert_eq!(needed, out.len());
    out
}

fn refusal(bytes: &[u8]) -> Refusal {
    ubf::read(bytes).unwrap_err()
}

#[test]
fn written_block_is_read_back() {
    let bytes = block(&[1, 2, 3, 4, 5, 6, 7, 8]);
    let read = ubf::read(&bytes).unwrap();
    assert_eq!(read.image, &[1, 2, 3, 4, 5, 6, 7, 8]);
    assert_eq!(read.check, 0x0C04_0404);
    assert_eq!((read.kind.number(), read.start), (1, 0x100));
    assert_eq!(&read.model[..9], b"ATGM331C\0");
    assert_eq!(read.size(), bytes.len());
}

#[test]
fn each_reading_check_has_its_number() {
    let good = block(&[1, 2, 3, 4]);
    let with = |at: usize, byte: u8| {
        let mut bad = good.clone();
        bad[at] = byte;
        bad
    };
    assert_eq!(refusal(&[]), Refusal::FileEnds);
    assert_eq!(refusal(&good[..207]), Refusal::FileEnds);
    assert_eq!(refusal(&with(0, b'B')), Refusal::NoMark);
    assert_eq!(refusal(&with(0x0E, 2)), Refusal::TypeOrAddress);
    assert_eq!(refusal(&with(0x07, 0)), Refusal::TypeOrAddress);
    assert_eq!(refusal(&with(0x02, 5)), Refusal::ImageLength);
    assert_eq!(refusal(&with(0x02, 0)), Refusal::ImageLength);
    assert_eq!(refusal(&with(0x04, 4)), Refusal::ImageLength);
    assert_eq!(refusal(&with(0x0B, 0)), Refusal::StartTooLow);
    assert_eq!(refusal(&with(0x0D, 0xFF)), Refusal::FileEnds);
    assert_eq!(refusal(&good[..good.len() - 1]), Refusal::FileEnds);
    assert_eq!(refusal(&with(0xFF, 1)), Refusal::NotZeroFilled);
    assert_eq!(refusal(&with(0x1F, 1)), Refusal::NotZeroFilled);
    assert_eq!(refusal(&with(0x100, 9)), Refusal::CheckDiffers);
}

#[test]
fn full_text_field_needs_no_zero() {
    let mut bytes = block(&[0; 4]);
    bytes[0x10..0x20].fill(b'A');
    assert!(ubf::read(&bytes).is_ok());
}

#[test]
fn largest_image_is_262140() {
    let image = vec![0xA5; 262_140];
    assert!(ubf::read(&block(&image)).is_ok());
    let mut out = vec![0; 300_000];
    assert_eq!(ubf::write(&fields(&vec![0; 262_144]), &mut out), Err(Refusal::ImageLength));
}

#[test]
fn writer_tests_in_order() {
    let image = [0; 4];
    let long = [b'x'; 17];
    let try_with = |change: fn(&mut Fields), image: &[u8]| {
        let mut changed = fields(image);
        change(&mut changed);
        ubf::write(&changed, &mut []).unwrap_err().number()
    };
    assert_eq!(try_with(|f| (f.address, f.start) = (0, 0), &image[..3]), 6);
    assert_eq!(try_with(|f| f.start = 0, &image[..3]), 8);
    let mut changed = Fields { start: 0xCF, model: &long, ..fields(&image) };
    assert_eq!(ubf::write(&changed, &mut []), Err(Refusal::StartTooLow));
    changed.start = 0xD0;
    assert_eq!(ubf::write(&changed, &mut []), Err(Refusal::NotZeroFilled));
    assert_eq!(ubf::write(&Fields { date: b"a\0b", ..fields(&image) }, &mut []), Err(Refusal::NotZeroFilled));
    assert_eq!(ubf::write(&fields(&image), &mut [0; 0x107]), Err(Refusal::OutputTooShort));
}

#[test]
fn blocks_are_walked() {
    let mut file = block(&[1, 2, 3, 4]);
    let second = file.len();
    file.extend(block(&[5; 8]));
    let whole = file.len();
    file.extend(b"AT");
    let at = |bytes: &[u8], n: usize| {
        let (mut kind, mut length, mut start, mut check, mut place, mut count) = (9, 9, 9, 9, 9, 9);
        let answer =
            flat::ubf_block_at(bytes, n, &mut kind, &mut length, &mut start, &mut check, &mut place, &mut count);
        (answer, length, place, count)
    };
    assert_eq!(at(&file[..whole], 0), (flat::FOUND, 4, 0, 0));
    assert_eq!(at(&file[..whole], 1), (flat::FOUND, 8, second, 0));
    assert_eq!(at(&file[..whole], 2), (flat::PAST, 0, 0, 2));
    assert_eq!(at(&file, 1), (flat::FOUND, 8, second, 0));
    assert_eq!(at(&file, 2), (4, 0, whole, 2));
    assert_eq!(at(&[], 0), (4, 0, 0, 0));
}
