//! Samples, headers and sizes in slices, which need no `std`.
use hound::slices::{
    decode_block, encode_block, encode_floats, encode_with_noise, file_size, find_samples, guess_data, kind,
    narrow_floats, whole_frames, widen_floats, write_filler, write_header, write_sizes, CallError, UnitDouble,
    UnitFloat,
};
use hound::{SampleFormat, WavSpec, WavSpecEx};
use SampleFormat::{Float, Int};

fn spec_of(sample_format: SampleFormat, bits_per_sample: u16, bytes_per_sample: u16) -> WavSpecEx {
    WavSpecEx { spec: WavSpec { channels: 1, sample_rate: 44100, bits_per_sample, sample_format }, bytes_per_sample }
}

#[test]
fn samples_are_encoded_and_decoded() {
    let mut bytes = [9; 8];
    assert_eq!(encode_block(spec_of(Int, 16, 2), Int, &[1i32, -1, 300], &mut bytes), Ok(6));
    assert_eq!(bytes, [1, 0, 255, 255, 44, 1, 9, 9]);
    let mut shorts = [7i16; 5];
    assert_eq!((decode_block(spec_of(Int, 16, 2), &bytes[..7], &mut shorts), shorts), (Ok(3), [1, -1, 300, 7, 7]));
    assert_eq!(encode_block(spec_of(Int, 8, 1), Int, &[-128i8, 127], &mut bytes), Ok(2));
    let mut small = [7i8; 2];
    assert_eq!(
        (decode_block(spec_of(Int, 8, 1), &bytes, &mut small), small, &bytes[..2]),
        (Ok(2), [-128, 127], &[0, 255][..])
    );
    assert_eq!(encode_block(spec_of(Int, 24, 4), Int, &[-2i32, 8_388_607], &mut bytes), Ok(8));
    assert_eq!(bytes, [0xfe, 0xff, 0xff, 0, 0xff, 0xff, 0x7f, 0]);
    let mut wide = [7i32; 2];
    assert_eq!((decode_block(spec_of(Int, 24, 4), &bytes, &mut wide), wide), (Ok(2), [-2, 8_388_607]));
    // Floats keep their bits, whatever they are; only the x87, through which i686 returns floats, makes each NaN quiet.
    let signals = if cfg!(target_arch = "x86") { 0x7fe1_2345 } else { 0x7fa1_2345 };
    let (pattern, mut floats) = (f32::from_bits(signals), [0f32; 1]);
    assert_eq!(encode_block(spec_of(Float, 32, 4), Float, &[pattern], &mut bytes), Ok(4));
    assert_eq!(decode_block(spec_of(Float, 32, 4), &bytes[..4], &mut floats), Ok(1));
    assert_eq!((&bytes[..4], floats[0].to_bits()), (&signals.to_le_bytes()[..], signals));
}

#[test]
fn an_error_leaves_the_slices_as_they_were() {
    let (mut bytes, mut shorts, mut floats, mut clipped) = ([9; 4], [7i16; 2], [0.5f32; 2], 5);
    let of_floats = spec_of(Float, 32, 4);
    assert_eq!(encode_block(spec_of(Int, 16, 2), Int, &[1, 40000], &mut bytes), Err(CallError::TooWide));
    assert_eq!(encode_block(spec_of(Int, 16, 2), Int, &[1i16, 2, 3], &mut bytes), Err(CallError::NoRoom));
    assert_eq!(encode_block(spec_of(Int, 12, 2), Int, &[1i16], &mut bytes), Err(CallError::NotWritable));
    assert_eq!(encode_block(spec_of(Int, 16, 0), Int, &[1i16], &mut bytes), Err(CallError::NotWritable));
    assert_eq!(encode_block(of_floats, Int, &[1i32], &mut bytes), Err(CallError::OtherFormat));
    assert_eq!(encode_floats(spec_of(Int, 16, 2), &[2f64; 3], &mut bytes, &mut clipped), Err(CallError::NoRoom));
    assert_eq!(encode_floats(of_floats, &[2f32], &mut bytes, &mut clipped), Err(CallError::OtherFormat));
    assert_eq!(decode_block(spec_of(Int, 24, 3), &[1; 6], &mut shorts), Err(CallError::TooWide));
    assert_eq!(decode_block(spec_of(Int, 16, 0), &[1; 6], &mut shorts), Err(CallError::NotWritable));
    assert_eq!(decode_block(of_floats, &[1; 8], &mut shorts), Err(CallError::OtherFormat));
    assert_eq!(narrow_floats(&[1.0; 3], &mut floats, &mut clipped), Err(CallError::NoRoom));
    assert_eq!((bytes, shorts, floats, clipped), ([9; 4], [7; 2], [0.5; 2], 5));
}

#[test]
fn integers_are_floats_whose_full_scale_is_1() {
    for (bits, width) in [(8, 1), (16, 2), (24, 3), (24, 4), (32, 4)] {
        let integers: Vec<i32> = (-128..128).map(|number| number << (bits - 8)).collect();
        let floats: Vec<f32> = (-128..128).map(|number| number as f32 / 128.0).collect();
        let (spec, mut bytes, mut back) = (spec_of(Int, bits, width), [7; 1024], [7; 1024]);
        let length = encode_block(spec, Int, &integers, &mut bytes).unwrap();
        let (mut singles, mut doubles, mut clipped) = ([UnitFloat(9.0); 257], [UnitDouble(9.0); 257], 9);
        assert_eq!(decode_block(spec, &bytes[..length], &mut singles), Ok(256));
        assert_eq!(decode_block(spec, &bytes[..length], &mut doubles), Ok(256));
        for (i, float) in floats.iter().enumerate() {
            assert_eq!((singles[i].0, doubles[i].0), (*float, f64::from(*float)));
        }
        assert_eq!((singles[256].0, doubles[256].0), (9.0, 9.0));
        assert_eq!((encode_floats(spec, &floats, &mut back, &mut clipped), clipped), (Ok(length), 0));
        assert_eq!(back, bytes);
    }
}

#[test]
fn what_no_integer_holds_is_clipped_and_counted() {
    let (step, mut bytes, mut clipped) = (0.5f64.powi(15), [0; 20], 0);
    let loud = [1.0, -1.0, -1.0001, f64::NAN, 0.5 * step, 1.5 * step, 2.5 * step, f64::INFINITY];
    assert_eq!((encode_floats(spec_of(Int, 16, 2), &loud, &mut bytes, &mut clipped), clipped), (Ok(16), 3));
    assert_eq!(bytes[..16], [0xff, 0x7f, 0, 0x80, 0, 0x80, 0, 0, 0, 0, 2, 0, 2, 0, 0xff, 0x7f]);
    // Doubles hold integers of 32 bits.
    let (integers, spec) = ([i32::MAX, i32::MIN, -16_777_217, 1], spec_of(Int, 32, 4));
    let (mut doubles, mut back) = ([UnitDouble(9.0); 4], [0; 16]);
    encode_block(spec, Int, &integers, &mut bytes).unwrap();
    assert_eq!(decode_block(spec, &bytes[..16], &mut doubles), Ok(4));
    assert_eq!(doubles.map(|double| double.0 * 2_147_483_648.0), integers.map(f64::from));
    assert_eq!(encode_floats(spec, &doubles.map(|double| double.0), &mut back, &mut clipped), Ok(16));
    assert_eq!((&back[..], clipped), (&bytes[..16], 0));
    // Floats of a file are narrowed to the nearest, and those that become infinite are counted.
    let mut narrow = [0.0; 3];
    assert_eq!((narrow_floats(&[0.1, 1e39, f64::INFINITY], &mut narrow, &mut clipped), clipped), (Ok(3), 1));
    assert_eq!(narrow, [0.1, f32::INFINITY, f32::INFINITY]);
    let mut widened = [0.0; 2];
    assert_eq!((widen_floats(&[0.1, -0.0], &mut widened), widened), (Ok(2), [f64::from(0.1f32), -0.0]));
}

// What is expected was computed with fractions.
#[test]
fn floats_with_noise() {
    let doubles =
        [0.0, 0.0, 0.0, 0.0, 0.0, 0.0, 2.5 / 32768.0, -2.5 / 32768.0, 0.5, 1.0, -1.0, 32767.0 / 32768.0, -1.5];
    let (spec, mut state, mut clipped, mut out) = (spec_of(Int, 16, 2), 1, 0, [9; 28]);
    let encoded = |spec, integers: &[i32]| {
        let mut bytes = vec![0; 4 * integers.len()];
        let length = encode_block(spec, Int, integers, &mut bytes).unwrap();
        bytes[..length].to_vec()
    };
    assert_eq!(encode_with_noise(spec, &doubles, &mut state, &mut out, &mut clipped), Ok(26));
    let integers = [0, 0, 0, 0, 0, 0, 2, -3, 16385, 32767, -32768, 32767, -32768];
    assert_eq!((state, clipped), (14_456_408_541_175_185_048, 1));
    assert_eq!((&out[..26], &out[26..]), (&encoded(spec, &integers)[..], &[9, 9][..]));
    // In parts, from the last seed on.
    state = u64::MAX;
    assert_eq!(encode_with_noise(spec, &doubles[..5], &mut state, &mut out, &mut clipped), Ok(10));
    assert_eq!((state, clipped), (17_926_616_799_853_148_662, 0));
    assert_eq!(encode_with_noise(spec, &doubles[5..], &mut state, &mut out[10..], &mut clipped), Ok(16));
    let integers = [0, 0, 1, 0, 1, 0, 3, -2, 16384, 32767, -32768, 32767, -32768];
    assert_eq!((state, clipped, &out[..26]), (5_784_830_984_886_631_774, 2, &encoded(spec, &integers)[..]));
    let (padded, floats) = (spec_of(Int, 24, 4), [0.1f32, -0.3, 0.7, 1.0]);
    state = 1;
    assert_eq!(encode_with_noise(padded, &floats, &mut state, &mut out, &mut clipped), Ok(16));
    let integers = [838_861, -2_516_583, 5_872_025, 8_388_607];
    assert_eq!((state, clipped, &out[..16]), (7_062_582_979_898_595_269, 1, &encoded(padded, &integers)[..]));
    // An error takes no noise, and writes nothing.
    let before = (state, clipped, out);
    let of_floats = spec_of(Float, 32, 4);
    let rejected = encode_with_noise(of_floats, &floats, &mut state, &mut out, &mut clipped);
    assert_eq!(rejected, Err(CallError::OtherFormat));
    assert_eq!(encode_with_noise(padded, &doubles, &mut state, &mut out, &mut clipped), Err(CallError::NoRoom));
    assert_eq!((state, clipped, out), before);
}

// The file of 44,100 Hz, one channel of 16 bits and these samples, by the words of RIFF.
const FILE: &[u8] = b"RIFF\x2a\0\0\0WAVEfmt \x10\0\0\0\x01\0\x01\0\x44\xac\0\0\x88\x58\x01\0\x02\0\x10\0\
    data\x06\0\0\0\x02\0\xfd\xff\x05\0";

#[test]
fn headers_and_sizes_are_those_of_the_file() {
    let (spec, mut header) = (spec_of(Int, 16, 2), [9; 50]);
    assert_eq!((file_size(spec, 3), write_header(spec, 3, &mut header)), (Ok(FILE.len()), Ok(44)));
    assert_eq!((&header[..44], &header[44..]), (&FILE[..44], &[9; 6][..]));
    let (head, samples) = find_samples(FILE).unwrap();
    assert_eq!((head.spec_ex, head.data_start, head.data_length, samples), (spec, 44, 6, 3));
    let mut sizes = [9; 8];
    assert_eq!((write_sizes(spec, 44, 3, &mut sizes), sizes), (Ok(50), [42, 0, 0, 0, 6, 0, 0, 0]));
    assert_eq!(write_header(spec, 3, &mut sizes), Err(CallError::NoRoom));
    assert_eq!(write_sizes(spec, 19, 3, &mut sizes), Err(CallError::NotWritable));
    assert_eq!(file_size(spec_of(Int, 12, 2), 3), Err(CallError::NotWritable));
    assert_eq!(
        (file_size(spec, 1 << 31), file_size(spec, 1 << 40)),
        (Err(CallError::TooLong), Err(CallError::TooLong))
    );
    // The length of the data would lie across two sectors.
    let mut filler = [9; 10];
    assert_eq!((write_filler(512, &mut filler), write_filler(514, &mut filler)), (Ok(0), Ok(10)));
    assert_eq!(&filler, b"JUNK\x02\0\0\0\0\0");
}

#[test]
fn sizes_that_32_bits_do_not_hold_are_an_error_where_usize_has_no_more() {
    let (spec, mut sizes) = (spec_of(Int, 8, 1), [0; 8]);
    // The longest file has a RIFF size of 4,294,967,294, and a pad byte.
    let most = 4_294_967_302u64;
    let held = usize::try_from(most).map_err(|_| CallError::TooLong);
    assert_eq!((file_size(spec, most - 45), whole_frames(spec, most)), (held, held));
    assert_eq!(write_sizes(spec, 4_294_967_301, 0, &mut sizes), held.map(|most| most - 1));
}

#[test]
fn frames_of_a_stream_and_a_damaged_header_are_found() {
    let mut stereo = spec_of(Int, 16, 2);
    stereo.spec.channels = 2;
    assert_eq!((whole_frames(stereo, 7), whole_frames(stereo, 8)), (Ok(4), Ok(8)));
    stereo.spec.channels = 0;
    assert_eq!(whole_frames(stereo, 8), Err(CallError::NotWritable));
    assert_eq!((guess_data(FILE), guess_data(&[&[0; 36], &FILE[36..]].concat())), (Ok(44), Ok(44)));
    assert!(guess_data(&FILE[..43]).is_err());
}

#[test]
fn what_a_file_is_that_is_not_read_is_named() {
    let mut file = FILE.to_vec();
    assert_eq!((kind(&file), kind(&[]), kind(b"just text")), (None, None, None));
    for (tag, name) in [(2, "Microsoft ADPCM"), (6, "A-law"), (7, "mu-law"), (17, "IMA ADPCM"), (49, "GSM 6.10")] {
        file[20] = tag;
        assert_eq!(kind(&file), Some(name));
    }
    (file[20], file[34]) = (3, 64);
    assert_eq!(kind(&file), Some("floats of 64 bits"));
    for (tag, name) in [(b"OggS", "Ogg"), (b"FORM", "AIFF"), (b"riff", "Wave64"), (b"fLaC", "FLAC")] {
        file[..4].copy_from_slice(tag);
        assert_eq!(kind(&file), Some(name));
    }
}
