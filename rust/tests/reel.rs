//! A reel from Rust: sealing, a cartridge written to early warning and read back damaged, and a wrong length for every call.

use notchbadger::*;

const KEY: &[u8; KEY_BYTES] = b"192-bit Secret Key value";
const NONCE: &[u8; NONCE_BYTES] = b"Nonces Used Once";
const BLOCKS: usize = 8;
const LONG: Result<(), Cause> = Err(Cause::WrongLength);
const ABOVE: Result<(), Cause> = Err(Cause::AboveLimit);

/// A cartridge written to early warning and closed: records at 0 and 1, a file mark at 3, a record at 4, end of data at 7.
fn written() -> (Vec<u8>, State) {
    let mut image = vec![0xFF; BLOCKS * BLOCK_BYTES];
    let state = State::start(7, 2026, 3, &mut image).expect("start");
    assert_eq!((state.id(), state.recording(), state.capacity(), state.zone()), (7, 2026, BLOCKS, 3));
    assert_eq!((state.position(), state.closed(), state.marks()), (0, false, 0));
    assert!(image.iter().all(|&b| b == 0));
    let wrote = state.record(KEY, b"hello", &mut image);
    assert_eq!(wrote.reply, Reply::Plain);
    let wrote = wrote.state.record(KEY, &[0x5A; BLOCK_PAYLOAD + 1], &mut image);
    assert_eq!((wrote.reply, wrote.state.position(), wrote.state.marks()), (Reply::Plain, 3, 0));
    let wrote = wrote.state.mark(KEY, &mut image);
    assert_eq!((wrote.reply, wrote.state.position(), wrote.state.marks()), (Reply::Plain, 4, 1));
    let wrote = wrote.state.record(KEY, &[0xA5; 3 * BLOCK_PAYLOAD], &mut image);
    assert_eq!((wrote.reply, wrote.state.position()), (Reply::Warned, 7));
    let wrote = wrote.state.record(KEY, b"x", &mut image);
    assert_eq!((wrote.reply, wrote.state.position()), (Reply::Refused(Cause::NoRoom), 7));
    let wrote = wrote.state.mark(KEY, &mut image);
    assert_eq!((wrote.reply, wrote.state.marks()), (Reply::Refused(Cause::NoRoom), 1));
    let wrote = wrote.state.close(KEY, &mut image);
    assert_eq!((wrote.reply, wrote.state.position(), wrote.state.closed()), (Reply::Plain, BLOCKS, true));
    assert_eq!(Cartridge::new(KEY, 7, 2026, &image).report().map(|tally| tally.marks), Ok(wrote.state.marks()));
    (image, wrote.state)
}

#[test]
fn seals_and_opens() {
    let message = b"what the drive said";
    let mut sealed = [0; 19 + TAG_BYTES];
    let mut back = [9; 19];
    assert_eq!(seal(KEY, NONCE, b"reel 7", message, &mut sealed), Ok(()));
    assert_eq!(open(KEY, NONCE, b"reel 7", &sealed, &mut back), Ok(()));
    assert_eq!(&back, message);
    sealed[3] ^= 1;
    assert_eq!(open(KEY, NONCE, b"reel 7", &sealed, &mut back), Err(Cause::WrongTag));
    assert_eq!(back, [0; 19]);
}

#[test]
fn seals_nothing() {
    let mut sealed = [0; TAG_BYTES];
    assert_eq!(seal(KEY, NONCE, &[], &[], &mut sealed), Ok(()));
    assert_eq!(open(KEY, NONCE, &[], &sealed, &mut []), Ok(()));
    assert_eq!(open(KEY, NONCE, b"x", &sealed, &mut []), Err(Cause::WrongTag));
}

#[test]
fn permutes_and_back() {
    let before: Vec<u8> = (0..64).map(|j| 3 * j + 1).collect();
    let (mut whole, mut rounds) = (before.clone(), before.clone());
    for r in 0..12 {
        let mut constants = [0; STATE_BYTES];
        for j in 0..8u8 {
            constants[usize::from(j)] = minibox(8 * r + j);
        }
        assert_eq!(round(&mut rounds, &constants), Ok(()));
    }
    assert_eq!(permute(&mut whole), Ok(()));
    assert_eq!(whole, rounds);
    assert_eq!(permute_back(&mut whole), Ok(()));
    assert_eq!(whole, before);
    assert_eq!(round(&mut whole, &rounds), Ok(()));
    assert_eq!(round_back(&mut whole, &rounds), Ok(()));
    assert_eq!(whole, before);
    assert_eq!((minibox(0x00), minibox(0x80)), (0x18, 0x97));
    assert_eq!(version(), 2);
}

#[test]
fn operations_agree() {
    let (mut here, mut there) = ([0; STATE_BYTES], [0; STATE_BYTES]);
    let (mut cipher, mut back, mut tag) = ([0; 33], [0; 33], [0; TAG_BYTES]);
    assert_eq!(put(&mut here, KEY, DOMAIN_KEY), Ok(()));
    assert_eq!(put(&mut there, KEY, DOMAIN_KEY), Ok(()));
    assert_eq!(enc(&mut here, &[7; 33], &mut cipher, DOMAIN_MESSAGE), Ok(()));
    assert_eq!(dec(&mut there, &cipher, &mut back, DOMAIN_MESSAGE), Ok(()));
    assert_eq!((here, back), (there, [7; 33]));
    assert_eq!(get(&mut here, &mut tag, DOMAIN_TAG), Ok(()));
    assert_eq!(tag[..], there[..TAG_BYTES]);
}

#[test]
fn walks_what_was_written() {
    let (image, _) = written();
    let reel = Cartridge::new(KEY, 7, 2026, &image);
    let visits: Vec<Visit> = reel.walk().collect::<Result<_, _>>().expect("walk");
    let seen: Vec<_> = visits.iter().map(|v| (v.position, v.outcome)).collect();
    let (long, longer) = (BLOCK_PAYLOAD + 1, 3 * BLOCK_PAYLOAD);
    use Outcome::*;
    assert_eq!(seen, [(0, Record(5)), (1, Record(long)), (3, Mark), (4, Record(longer)), (7, End)]);
    assert_eq!(visits[0].record, b"hello");
    assert_eq!(visits[1].record, vec![0x5A; long]);
    assert!(visits[2].record.is_empty());
    assert_eq!(reel.report(), Ok(Tally { records: 3, marks: 1, ends: 1, ..Tally::default() }));
    assert_eq!(reel.space(0, 0), Ok(Spaced::At(0)));
    assert_eq!(reel.space(0, 1), Ok(Spaced::At(4)));
    assert_eq!(reel.space(0, 2), Ok(Spaced::Short { marks: 1, position: 7 }));
}

#[test]
fn walks_a_spoiled_cartridge() {
    let (mut image, _) = written();
    image[2 * BLOCK_BYTES + 40] ^= 1;
    image[4 * BLOCK_BYTES + 40] ^= 1;
    let reel = Cartridge::new(KEY, 7, 2026, &image);
    let seen: Vec<_> = reel.walk().map(|v| v.map(|v| (v.position, v.outcome))).collect();
    use Outcome::*;
    assert_eq!(seen, [Ok((0, Record(5))), Ok((1, Cut(2))), Ok((3, Mark)), Ok((4, Bad)), Ok((5, Stray)), Ok((6, Stray)), Ok((7, End))]);
    assert_eq!(reel.report(), Ok(Tally { records: 1, marks: 1, ends: 1, bads: 1, strays: 2, cuts: 1 }));
    // under another recording number no block opens, and the walk ends at the capacity
    let other = Cartridge::new(KEY, 7, 2027, &image);
    assert!(other.walk().all(|v| v.map(|v| v.outcome) == Ok(Bad)));
    assert_eq!(other.walk().count(), BLOCKS);
    assert_eq!(other.space(0, 1), Ok(Spaced::Short { marks: 0, position: BLOCKS }));
}

#[test]
fn looks_at_blocks() {
    let (image, _) = written();
    assert_eq!(look(&image, 2), Ok(&image[2 * BLOCK_BYTES..3 * BLOCK_BYTES]));
    assert_eq!(look(&image, BLOCKS), Err(Cause::Unlawful));
    assert_eq!(look(&image, usize::MAX), Err(Cause::Unlawful));
    assert_eq!(look(&image[1..], 0), Err(Cause::WrongImage));
    assert_eq!(look(&[], 0), Err(Cause::WrongImage));
}

#[test]
fn wrong_lengths_of_the_cipher() {
    let (mut state, key) = ([1; STATE_BYTES], [2; STATE_BYTES]);
    let mut most = vec![0; OPERATION_MAX + 1];
    let above = vec![0; OPERATION_MAX + 1];
    assert_eq!((permute(&mut state[1..]), permute(&mut [])), (LONG, LONG));
    assert_eq!((permute_back(&mut state[1..]), permute_back(&mut [])), (LONG, LONG));
    assert_eq!((round(&mut state[1..], &key), round(&mut state, &key[1..])), (LONG, LONG));
    assert_eq!((round_back(&mut state[1..], &key), round_back(&mut state, &[])), (LONG, LONG));
    assert_eq!((put(&mut state[1..], &[], 0), put(&mut state, &above, 0)), (LONG, ABOVE));
    assert_eq!((get(&mut [], &mut [], 0), get(&mut state, &mut most, 0)), (LONG, ABOVE));
    assert_eq!((enc(&mut state, &[0; 5], &mut most[..4], 0), enc(&mut state, &above, &mut most, 0)), (LONG, ABOVE));
    assert_eq!((dec(&mut state, &[0; 5], &mut [], 0), dec(&mut state, &above, &mut most, 0)), (LONG, ABOVE));
    assert_eq!(state, [1; STATE_BYTES]);
    let (mut sealed, mut back) = ([9; 5 + TAG_BYTES], [9; 5]);
    assert_eq!(seal(&KEY[1..], NONCE, &[], &[0; 5], &mut sealed), LONG);
    assert_eq!(seal(KEY, &[], &[], &[0; 5], &mut sealed), LONG);
    assert_eq!(seal(KEY, NONCE, &[], &[0; 4], &mut sealed), LONG);
    assert_eq!(seal(KEY, NONCE, &above, &[0; 5], &mut sealed), ABOVE);
    assert_eq!(seal(KEY, NONCE, &[], &above[..MESSAGE_MAX + 1], &mut vec![0; MESSAGE_MAX + 1 + TAG_BYTES]), ABOVE);
    assert_eq!(open(&[], NONCE, &[], &sealed, &mut back), LONG);
    assert_eq!(open(KEY, &NONCE[1..], &[], &sealed, &mut back), LONG);
    assert_eq!(open(KEY, NONCE, &[], &sealed, &mut back[1..]), LONG);
    assert_eq!(open(KEY, NONCE, &[], &sealed[..TAG_BYTES - 1], &mut []), LONG);
    assert_eq!(open(KEY, NONCE, &above, &sealed, &mut back), ABOVE);
    assert_eq!((sealed, back), ([9; 5 + TAG_BYTES], [9; 5]));
}

/// The writer refuses by the cause and gives the state back as it was.
fn refused(wrote: Wrote, cause: Cause) -> State {
    assert_eq!(wrote.reply, Reply::Refused(cause));
    wrote.state
}

#[test]
fn wrong_lengths_of_the_writer() {
    let mut image = vec![3; BLOCKS * BLOCK_BYTES];
    let many = vec![0; RECORD_MAX + 1];
    assert_eq!(State::start(1, 1, 1, &mut []), Err(Cause::WrongImage));
    assert_eq!(State::start(1, 1, 1, &mut image[1..]), Err(Cause::WrongImage));
    assert_eq!(State::start(1, 1, 0, &mut image), Err(Cause::WrongZone));
    assert_eq!(State::start(1, 1, BLOCKS, &mut image), Err(Cause::WrongZone));
    assert!(image.iter().all(|&b| b == 3));
    let state = State::start(1, 1, 3, &mut image).expect("start");
    let state = refused(state.record(KEY, b"x", &mut []), Cause::WrongImage);
    let state = refused(state.record(&KEY[1..], b"x", &mut image), Cause::WrongLength);
    let state = refused(state.record(KEY, b"x", &mut image[BLOCK_BYTES..]), Cause::Unlawful);
    let state = refused(state.record(KEY, &[], &mut image), Cause::WrongRecord);
    let state = refused(state.record(KEY, &many, &mut image), Cause::WrongRecord);
    let state = refused(state.record(KEY, &many[1..], &mut image), Cause::NoRoom);
    let state = refused(state.mark(KEY, &mut image[1..]), Cause::WrongImage);
    let state = refused(state.mark(&[], &mut image), Cause::WrongLength);
    let state = refused(state.close(KEY, &mut []), Cause::WrongImage);
    let state = refused(state.close(&[0; KEY_BYTES + 1], &mut image), Cause::WrongLength);
    assert_eq!(state, State::restored(1, 1, BLOCKS, 3, 0, false, 0));
    assert!(image.iter().all(|&b| b == 0));
    let closed = state.close(KEY, &mut image).state;
    let closed = refused(closed.record(KEY, b"x", &mut image), Cause::Closed);
    let closed = refused(closed.mark(KEY, &mut image), Cause::Closed);
    assert_eq!(refused(closed.close(KEY, &mut image), Cause::Closed).position(), 1);
    let _ = refused(State::restored(1, 1, BLOCKS, 3, BLOCKS, false, 0).mark(KEY, &mut image), Cause::Unlawful);
}

/// A record and a mark are warned alike, above the capacity less the zone; a closing never is.
#[test]
fn warned_by_the_position_behind_it() {
    let mut image = vec![0; BLOCKS * BLOCK_BYTES];
    for zone in 1..BLOCKS {
        for position in 0..BLOCKS - 1 {
            let at = || State::restored(1, 1, BLOCKS, zone, position, false, 0);
            let reply = if position + 1 > BLOCKS - zone { Reply::Warned } else { Reply::Plain };
            assert_eq!((at().mark(KEY, &mut image).reply, at().record(KEY, b"x", &mut image).reply), (reply, reply));
            assert_eq!(at().close(KEY, &mut image).reply, Reply::Plain);
        }
    }
}

#[test]
fn no_more_marks_than_blocks() {
    let mut image = vec![0; BLOCKS * BLOCK_BYTES];
    let above = refused(State::restored(1, 1, BLOCKS, 3, 2, false, 3).mark(KEY, &mut image), Cause::Unlawful);
    assert_eq!(above, State::restored(1, 1, BLOCKS, 3, 2, false, 3));
    let _ = refused(State::restored(1, 1, BLOCKS, 3, 2, true, usize::MAX).close(KEY, &mut image), Cause::Unlawful);
    let _ = refused(State::restored(1, 1, BLOCKS, 3, 2, true, 2).close(KEY, &mut image), Cause::Closed);
    let equal = State::restored(1, 1, BLOCKS, 3, 2, false, 2).mark(KEY, &mut image);
    assert_eq!((equal.reply, equal.state.marks()), (Reply::Plain, 3));
}

#[test]
fn wrong_lengths_of_the_reader() {
    let (image, _) = written();
    let mut buffer = vec![9; RECORD_MAX];
    let reel = Cartridge::new(KEY, 7, 2026, &image);
    let keyless = Cartridge::new(&[], 7, 2026, &image);
    let short = Cartridge::new(KEY, 7, 2026, &image[1..]);
    let none = Cartridge::new(KEY, 7, 2026, &[]);
    assert_eq!(reel.read(0, &mut buffer[1..]), Err(Cause::WrongLength));
    assert_eq!(reel.read(0, &mut []), Err(Cause::WrongLength));
    assert_eq!(reel.read(BLOCKS, &mut buffer), Err(Cause::Unlawful));
    assert_eq!(keyless.read(0, &mut buffer), Err(Cause::WrongLength));
    assert_eq!(short.read(0, &mut buffer), Err(Cause::WrongImage));
    assert!(buffer.iter().all(|&b| b == 9));
    assert_eq!(reel.read(0, &mut buffer), Ok(Got { outcome: Outcome::Record(5), next: 1 }));
    assert_eq!(record_part(&buffer, 5), b"hello");
    assert_eq!(record_part(&buffer, RECORD_MAX + 1), b"");
    assert_eq!((record_part(&[], 0), record_part(&[], usize::MAX)), (&b""[..], &b""[..]));
    assert_eq!(reel.space(BLOCKS, 0), Err(Cause::Unlawful));
    assert_eq!(keyless.space(0, 1), Err(Cause::WrongLength));
    assert_eq!(none.space(0, 1), Err(Cause::WrongImage));
    assert_eq!(keyless.report(), Err(Cause::WrongLength));
    assert_eq!(none.report(), Err(Cause::WrongImage));
    assert_eq!(none.walk().collect::<Vec<_>>(), [Err(Cause::WrongImage)]);
    assert_eq!(keyless.walk().collect::<Vec<_>>(), [Err(Cause::WrongLength)]);
    assert!(!format!("{reel:?} {:?}", reel.walk()).contains("Secret"));
}

#[test]
fn causes_have_the_headers_numbers() {
    use Cause::*;
    let all = [WrongImage, WrongLength, WrongZone, WrongRecord, NoRoom, Closed, WrongTag, Unlawful, AboveLimit];
    assert!(all.iter().zip(1..).all(|(cause, number)| cause.number() == number));
}
