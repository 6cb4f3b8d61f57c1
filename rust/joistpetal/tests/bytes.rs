//! The byte form, whole and damaged.
mod common;
use common::{Random, any, array, bytes_of, literal};
use joistpetal::op_function::and;
use joistpetal::{Bdd, Refusal};
use std::io::{self, ErrorKind, Read};

#[test]
fn there_and_back() -> Result<(), Refusal> {
    let mut random = Random(21);
    for n in 0..8 {
        let entries = array(&random.values(n));
        let bytes = bytes_of(&entries);
        let mut data = bytes.as_slice();
        let set = Bdd::from_bytes(&mut data)?;
        assert!(data.is_empty());
        assert_eq!(set.to_bytes()?, bytes);
        assert_eq!(set.entries().collect::<Vec<_>>(), entries);
        assert_eq!((set.size(), set.num_vars()), (entries.len(), n));
    }
    Ok(())
}

#[test]
fn a_tail_is_dropped_and_told() -> Result<(), Refusal> {
    let bytes = literal(2, 0, true).to_bytes()?;
    for cut in 10..=bytes.len() {
        let (set, tail) = Bdd::from_bytes_and_tail(&bytes[..cut])?;
        assert_eq!((set.size(), tail), (cut / 10, cut % 10));
        assert_eq!(Bdd::from_bytes(&mut &bytes[..cut])?, set);
    }
    Ok(())
}

/// No whole record is no set. The original reads an empty one, on which some calls panic.
#[test]
fn an_empty_file_is_2() {
    for size in 0..10 {
        let bytes = vec![0; size];
        let mut data = bytes.as_slice();
        assert_eq!(Bdd::from_bytes(&mut data), Err(Refusal::LEFT_NOT_ORDERED));
        assert_eq!(data.len(), size);
    }
}

#[test]
fn too_many_records_are_9() {
    let bytes = vec![0; 10 * 4_096 + 10];
    let mut data = bytes.as_slice();
    assert_eq!(Bdd::from_bytes(&mut data), Err(Refusal::NO_ROOM));
    assert_eq!(data.len(), bytes.len());
    assert_eq!(
        Bdd::from_bytes_and_tail(&bytes[1..]).map(|(set, tail)| (set.size(), tail)),
        Ok((4_096, 9))
    );
    assert!(Bdd::from_bytes(&mut vec![255; 1_000_000].as_slice()).is_err());
}

/// Whatever the bytes are: what is read is ordered, and every job takes it, or it is not, and every job says so.
fn takes_or_refuses(bytes: &[u8]) {
    let set = Bdd::from_bytes(&mut &bytes[..]).expect("1 to 4,096 records");
    let x = Bdd::mk_true(set.num_vars().min(256)).expect("so many options");
    let jobs = [
        set.not(),
        set.and(&set),
        set.signing_order(),
        Bdd::binary_op(&set, &x, and),
    ];
    for job in jobs {
        assert_eq!(
            job.err(),
            (!set.is_ordered()).then_some(Refusal::LEFT_NOT_ORDERED)
        );
    }
    let right = x.and(&set);
    assert_eq!(
        right.err(),
        (!set.is_ordered()).then_some(Refusal::RIGHT_NOT_ORDERED)
    );
    let dry = Bdd::check_binary_op(usize::MAX, &set, &set, and);
    assert_eq!(dry.is_ok(), set.is_ordered());
    match set.to_bytes() {
        Ok(written) => assert_eq!(written, bytes[..bytes.len() / 10 * 10]),
        Err(refusal) => assert_eq!((refusal.number(), set.is_ordered()), (2, false)),
    }
    assert!(set.is_ordered() || !(set.is_tidy() || set.is_true() || set.is_false()));
    assert_eq!(
        set.as_bool(),
        set.is_ordered()
            .then_some(set.size() == 2)
            .filter(|_| set.size() < 3)
    );
}

#[test]
fn damaged_bytes() {
    let mut random = Random(22);
    for n in 1..6 {
        let bytes = bytes_of(&array(&random.values(n)));
        takes_or_refuses(&bytes);
        for place in 0..bytes.len() {
            for damage in [1, 2, 128, 255] {
                let mut damaged = bytes.clone();
                damaged[place] ^= damage;
                takes_or_refuses(&damaged);
            }
        }
    }
    for _ in 0..500 {
        let size = 10 + random.below(200);
        let noise: Vec<u8> = (0..size).map(|_| random.below(256) as u8).collect();
        takes_or_refuses(&noise);
    }
}

/// Of a file that says 65,535 options; of forward links, which the original takes.
#[test]
fn damaged_sets() {
    takes_or_refuses(&bytes_of(&[(65_535, 0, 0)]));
    takes_or_refuses(&bytes_of(&[(257, 0, 0), (257, 1, 1)]));
    takes_or_refuses(&bytes_of(&[(2, 0, 0), (2, 1, 1), (0, 0, 3), (1, 0, 1)]));
}

#[test]
fn readers_and_writers() -> io::Result<()> {
    let set = literal(3, 1, false);
    let mut file = Vec::new();
    set.write_as_bytes(&mut file)?;
    assert_eq!(file, set.to_bytes()?);
    assert_eq!(Bdd::read_as_bytes(&mut file.as_slice())?, set);
    // A byte at a time.
    struct Slow<'a>(&'a [u8]);
    impl Read for Slow<'_> {
        fn read(&mut self, buffer: &mut [u8]) -> io::Result<usize> {
            let one = buffer.len().min(1);
            self.0.read(&mut buffer[..one])
        }
    }
    assert_eq!(Bdd::read_as_bytes(&mut Slow(&file))?, set);
    Ok(())
}

#[test]
fn refusals_in_io_errors() {
    let bad = any(&[(2, 0, 0), (2, 1, 1), (0, 2, 1)]);
    let mut file = Vec::new();
    let error = bad.write_as_bytes(&mut file).unwrap_err();
    assert_eq!(Refusal::carried_by(&error), Some(Refusal::LEFT_NOT_ORDERED));
    assert_eq!(
        error.to_string(),
        "refusal 2: left (or only) set not ordered"
    );
    assert_eq!(error.kind(), ErrorKind::InvalidData);
    assert!(file.is_empty());
    // An input without end is left as soon as it is too long.
    let error = Bdd::read_as_bytes(&mut io::repeat(0)).unwrap_err();
    assert_eq!(Refusal::carried_by(&error), Some(Refusal::NO_ROOM));
    let error = Bdd::read_as_bytes(&mut io::empty()).unwrap_err();
    assert_eq!(Refusal::carried_by(&error), Some(Refusal::LEFT_NOT_ORDERED));
    // A failure of the reader's own stays one.
    struct Broken;
    impl Read for Broken {
        fn read(&mut self, _: &mut [u8]) -> io::Result<usize> {
            Err(ErrorKind::TimedOut.into())
        }
    }
    let error = Bdd::read_as_bytes(&mut Broken).unwrap_err();
    assert_eq!(
        (Refusal::carried_by(&error), error.kind()),
        (None, ErrorKind::TimedOut)
    );
}
