//! Reads the orders of a file and writes their forwards, over and over, in plain Rust.
//!
//! The words behind the name, the works and the line that is printed are those of the program in
//! `orders_read`. Each frame is gone over once: its fields go into slots by their tags while they
//! are found. The checks and the answers are the same.
use std::time::Instant;

const BEGIN: &[u8] = b"8=FIX.4.4\x019=";
const ROOM: usize = 9216;
const BODY_FROM: usize = 17;

/// 1 to 64 bytes of 32 to 126.
#[derive(Clone, Copy)]
struct Id {
    bytes: [u8; 64],
    len: usize,
}

struct Head {
    sender: Id,
    target: Id,
    seq: u32,
    time: Id,
}

/// What an order and a replacement say of what is traded.
struct Terms {
    symbol: Id,
    side: u8,
    quantity: u64,
    limit: bool,
    price: u64,
}

enum Exec {
    New,
    Canceled,
    Replaced,
    Rejected,
    Expired,
    Trade { quantity: u64, price: u64 },
    Else,
}

enum Message {
    New { head: Head, id: Id, account: Id, terms: Terms },
    Cancel { head: Head, id: Id, orig: Id },
    Replace { head: Head, id: Id, orig: Id, account: Option<Id>, terms: Terms },
    Report { head: Head, id: Option<Id>, exec: Exec },
    CancelReject { head: Head, id: Id },
    Admin,
    Other,
}

/// Why a text isn't read.
#[derive(Clone, Copy)]
enum Spelling {
    Form,
    Range,
}

/// The tag and SessionRejectReason (373) of a fault.
struct Fault {
    tag: u32,
    reason: u8,
}

/// Why no frame stands there.
enum NoFrame {
    End,
    Cut,
    Broken,
    TooLong,
}

#[derive(Clone, Copy, PartialEq)]
enum Kind {
    New,
    Cancel,
    Replace,
    Report,
    CancelReject,
    Admin,
    Other,
}

/// How often a tag was there, and its first value.
#[derive(Clone, Copy)]
struct Slot<'a> {
    count: u32,
    text: &'a [u8],
}

type Slots<'a> = [Slot<'a>; 16];

#[derive(Clone, Copy)]
enum Need {
    Required,
    Optional,
    WithLimit,
    WithTrade,
}

#[derive(Clone, Copy)]
enum ReadAs {
    Sequence,
    Identifier,
    AnyText,
    Side,
    Quantity,
    OrdType,
    Price,
}

/// The place of a tag's slot.
fn place_of(tag: u32) -> Option<usize> {
    Some(match tag {
        34 => 0,
        49 => 1,
        56 => 2,
        52 => 3,
        35 => 4,
        150 => 5,
        11 => 6,
        41 => 7,
        1 => 8,
        55 => 9,
        54 => 10,
        38 => 11,
        40 => 12,
        44 => 13,
        32 => 14,
        31 => 15,
        _ => return None,
    })
}

const TAGS: [u32; 16] = [34, 49, 56, 52, 35, 150, 11, 41, 1, 55, 54, 38, 40, 44, 32, 31];

const READERS: [ReadAs; 16] = [
    ReadAs::Sequence,
    ReadAs::Identifier,
    ReadAs::Identifier,
    ReadAs::Identifier,
    ReadAs::AnyText,
    ReadAs::Identifier,
    ReadAs::Identifier,
    ReadAs::Identifier,
    ReadAs::Identifier,
    ReadAs::Identifier,
    ReadAs::Side,
    ReadAs::Quantity,
    ReadAs::OrdType,
    ReadAs::Price,
    ReadAs::Quantity,
    ReadAs::Price,
];

/// The places that are read in a kind of message, in their order.
fn rows_of(kind: Kind) -> &'static [(usize, Need)] {
    use Need::{Optional, Required, WithLimit, WithTrade};
    match kind {
        Kind::New => &[
            (0, Required),
            (1, Required),
            (2, Required),
            (3, Required),
            (4, Required),
            (6, Required),
            (8, Required),
            (9, Required),
            (10, Required),
            (11, Required),
            (12, Required),
            (13, WithLimit),
        ],
        Kind::Cancel => &[
            (0, Required),
            (1, Required),
            (2, Required),
            (3, Required),
            (4, Required),
            (6, Required),
            (7, Required),
        ],
        Kind::Replace => &[
            (0, Required),
            (1, Required),
            (2, Required),
            (3, Required),
            (4, Required),
            (6, Required),
            (7, Required),
            (8, Optional),
            (9, Required),
            (10, Required),
            (11, Required),
            (12, Required),
            (13, WithLimit),
        ],
        Kind::Report => &[
            (0, Required),
            (1, Required),
            (2, Required),
            (3, Required),
            (4, Required),
            (5, Required),
            (6, Optional),
            (14, WithTrade),
            (15, WithTrade),
        ],
        Kind::CancelReject => &[
            (0, Required),
            (1, Required),
            (2, Required),
            (3, Required),
            (4, Required),
            (6, Required),
        ],
        Kind::Admin | Kind::Other => &[],
    }
}

impl Id {
    fn read(text: &[u8]) -> Result<Id, Spelling> {
        if !text.iter().all(|byte| (32..=126).contains(byte)) {
            return Err(Spelling::Form);
        }
        if text.is_empty() || text.len() > 64 {
            return Err(Spelling::Range);
        }
        let mut bytes = [0; 64];
        bytes[..text.len()].copy_from_slice(text);
        Ok(Id { bytes, len: text.len() })
    }

    fn bytes(&self) -> &[u8] {
        &self.bytes[..self.len]
    }
}

fn number_after(start: u64, digits: &[u8]) -> u64 {
    digits.iter().fold(start, |value, digit| {
        value.saturating_mul(10).saturating_add(u64::from(digit - b'0'))
    })
}

fn read_scaled(text: &[u8], places: usize, most: u64) -> Result<u64, Spelling> {
    let unsigned = text.strip_prefix(b"-").unwrap_or(text);
    let point = unsigned.iter().position(|byte| *byte == b'.');
    let (whole, fraction) = match point {
        Some(at) => (&unsigned[..at], &unsigned[at + 1..]),
        None => (unsigned, &[][..]),
    };
    let are_digits = whole.iter().chain(fraction).all(|byte| byte.is_ascii_digit());
    if !are_digits || whole.is_empty() && fraction.is_empty() {
        return Err(Spelling::Form);
    }
    let (kept, finer) = fraction.split_at(fraction.len().min(places));
    let mut value = number_after(number_after(0, whole), kept);
    for _ in kept.len()..places {
        value = value.saturating_mul(10);
    }
    let is_range = unsigned.len() == text.len() && text.len() <= 32 && (1..=most).contains(&value);
    if !is_range || finer.iter().any(|byte| *byte != b'0') {
        return Err(Spelling::Range);
    }
    Ok(value)
}

fn read_price(text: &[u8]) -> Result<u64, Spelling> {
    read_scaled(text, 4, 9_999_999_999)
}

fn read_quantity(text: &[u8]) -> Result<u64, Spelling> {
    read_scaled(text, 0, 1_000_000_000)
}

fn read_sequence(text: &[u8]) -> Result<u32, Spelling> {
    if text.is_empty() || !text.iter().all(|byte| byte.is_ascii_digit()) {
        return Err(Spelling::Form);
    }
    let value = number_after(0, text);
    if text.len() > 32 || !(1..=999_999_999).contains(&value) {
        return Err(Spelling::Range);
    }
    Ok(value as u32)
}

fn read_side(text: &[u8]) -> Result<u8, Spelling> {
    match text {
        [side @ (b'1' | b'2' | b'5' | b'6')] => Ok(*side),
        _ => Err(Spelling::Range),
    }
}

fn read_limit(text: &[u8]) -> Result<bool, Spelling> {
    match text {
        b"1" => Ok(false),
        b"2" => Ok(true),
        _ => Err(Spelling::Range),
    }
}

fn kind_of(text: &[u8]) -> Kind {
    match text {
        b"D" => Kind::New,
        b"F" => Kind::Cancel,
        b"G" => Kind::Replace,
        b"8" => Kind::Report,
        b"9" => Kind::CancelReject,
        [b'0'..=b'5' | b'A'] => Kind::Admin,
        _ => Kind::Other,
    }
}

/// The tag in front, and the places of the value behind it.
#[inline]
fn first_field(text: &[u8]) -> Option<(u32, usize, usize)> {
    let mut tag = 0;
    let mut count = 0;
    while count < 6 && count < text.len() && text[count].is_ascii_digit() {
        tag = tag * 10 + u32::from(text[count] - b'0');
        count += 1;
    }
    if count == 0 || text[0] == b'0' || text.get(count) != Some(&b'=') {
        return None;
    }
    let from = count + 1;
    let len = text[from..].iter().position(|byte| *byte == 1)?;
    Some((tag, from, from + len))
}

/// The places of the digits in front, up to `most`, that SOH follows.
fn digits_before_soh(text: &[u8], most: usize) -> usize {
    let count = text.iter().take(most).take_while(|byte| byte.is_ascii_digit()).count();
    if text.get(count) == Some(&1) { count } else { 0 }
}

/// Where a frame's body begins and ends.
#[derive(Clone, Copy)]
struct Frame {
    body_from: usize,
    body_to: usize,
    sound: bool,
}

/// The frame from there on. Each field of its body is handed to `take`.
#[inline]
fn next_frame<'a>(
    bytes: &'a [u8],
    from: usize,
    mut take: impl FnMut(u32, &'a [u8]),
) -> Result<Frame, NoFrame> {
    let line_ends = bytes[from..].iter().take_while(|byte| matches!(byte, b'\r' | b'\n')).count();
    let start = from + line_ends;
    let rest = &bytes[start..];
    if rest.is_empty() {
        return Err(NoFrame::End);
    }
    let Some(after) = rest.strip_prefix(BEGIN) else {
        return Err(if BEGIN.starts_with(rest) { NoFrame::Cut } else { NoFrame::Broken });
    };
    let count = digits_before_soh(after, 7);
    if count == 0 {
        let is_cut = after.len() <= 7 && after.iter().all(|byte| byte.is_ascii_digit());
        return Err(if is_cut { NoFrame::Cut } else { NoFrame::Broken });
    }
    let length = number_after(0, &after[..count]) as usize;
    if length > 8192 {
        return Err(NoFrame::TooLong);
    }
    let after = &after[count + 1..];
    if after.len() < length + 7 {
        return Err(NoFrame::Cut);
    }
    let (body, trailer) = after.split_at(length);
    let is_ended = body.last() == Some(&1) && trailer.starts_with(b"10=");
    if !is_ended || digits_before_soh(&trailer[3..], 3) != 3 {
        return Err(NoFrame::Broken);
    }
    let body_from = start + BEGIN.len() + count + 1;
    let sum = checksum(&bytes[start..body_from + length]);
    let mut sound = number_after(0, &trailer[3..6]) == u64::from(sum);
    let mut at = 0;
    while sound && at < length {
        match first_field(&body[at..]) {
            Some((tag, from, to)) => {
                sound = at > 0 || tag == 35 && from < to;
                take(tag, &body[at + from..at + to]);
                at += to + 1;
            }
            None => sound = false,
        }
    }
    Ok(Frame { body_from, body_to: body_from + length, sound })
}

fn checksum(bytes: &[u8]) -> u8 {
    bytes.iter().fold(0, |sum: u8, byte| sum.wrapping_add(*byte))
}

fn spelling_reason<T>(read: Result<T, Spelling>) -> Option<u8> {
    match read {
        Ok(_) => None,
        Err(Spelling::Form) => Some(6),
        Err(Spelling::Range) => Some(5),
    }
}

/// The reason, if any, for which the slot at a place is a fault.
fn reason_of(slots: &Slots, place: usize, need: Need) -> Option<u8> {
    let is_read = match need {
        Need::Required | Need::Optional => true,
        Need::WithLimit => slots[12].text == b"2",
        Need::WithTrade => slots[5].text == b"F",
    };
    if !is_read {
        return None;
    }
    let Slot { count, text } = slots[place];
    match count {
        0 if matches!(need, Need::Optional) => return None,
        0 => return Some(1),
        1 if text.is_empty() => return Some(4),
        1 => {}
        _ => return Some(13),
    }
    match READERS[place] {
        ReadAs::Sequence => spelling_reason(read_sequence(text)),
        ReadAs::Identifier => spelling_reason(Id::read(text)),
        ReadAs::AnyText => None,
        ReadAs::Side => spelling_reason(read_side(text)),
        ReadAs::Quantity => spelling_reason(read_quantity(text)),
        ReadAs::OrdType => spelling_reason(read_limit(text)),
        ReadAs::Price => spelling_reason(read_price(text)),
    }
}

fn first_fault(slots: &Slots, kind: Kind) -> Option<Fault> {
    rows_of(kind).iter().find_map(|(place, need)| {
        let reason = reason_of(slots, *place, *need)?;
        Some(Fault { tag: TAGS[*place], reason })
    })
}

/// The id in a slot that was checked.
fn id_at(slots: &Slots, place: usize) -> Id {
    let text = slots[place].text;
    let mut bytes = [0; 64];
    bytes[..text.len()].copy_from_slice(text);
    Id { bytes, len: text.len() }
}

fn optional_id_at(slots: &Slots, place: usize) -> Option<Id> {
    if slots[place].count == 0 { None } else { Some(id_at(slots, place)) }
}

fn head_of(slots: &Slots) -> Head {
    Head {
        sender: id_at(slots, 1),
        target: id_at(slots, 2),
        seq: read_sequence(slots[0].text).unwrap_or(0),
        time: id_at(slots, 3),
    }
}

fn terms_of(slots: &Slots) -> Terms {
    let limit = slots[12].text == b"2";
    Terms {
        symbol: id_at(slots, 9),
        side: read_side(slots[10].text).unwrap_or(0),
        quantity: read_quantity(slots[11].text).unwrap_or(0),
        limit,
        price: if limit { read_price(slots[13].text).unwrap_or(0) } else { 0 },
    }
}

fn exec_of(slots: &Slots) -> Exec {
    match slots[5].text {
        b"0" => Exec::New,
        b"4" => Exec::Canceled,
        b"5" => Exec::Replaced,
        b"8" => Exec::Rejected,
        b"C" => Exec::Expired,
        b"F" => Exec::Trade {
            quantity: read_quantity(slots[14].text).unwrap_or(0),
            price: read_price(slots[15].text).unwrap_or(0),
        },
        _ => Exec::Else,
    }
}

fn message_of(slots: &Slots, kind: Kind) -> Message {
    match kind {
        Kind::New => Message::New {
            head: head_of(slots),
            id: id_at(slots, 6),
            account: id_at(slots, 8),
            terms: terms_of(slots),
        },
        Kind::Cancel => Message::Cancel {
            head: head_of(slots),
            id: id_at(slots, 6),
            orig: id_at(slots, 7),
        },
        Kind::Replace => Message::Replace {
            head: head_of(slots),
            id: id_at(slots, 6),
            orig: id_at(slots, 7),
            account: optional_id_at(slots, 8),
            terms: terms_of(slots),
        },
        Kind::Report => Message::Report {
            head: head_of(slots),
            id: optional_id_at(slots, 6),
            exec: exec_of(slots),
        },
        Kind::CancelReject => Message::CancelReject {
            head: head_of(slots),
            id: id_at(slots, 6),
        },
        Kind::Admin => Message::Admin,
        Kind::Other => Message::Other,
    }
}

/// The frame from there on, and what is read of it.
#[inline(never)]
fn read_next(bytes: &[u8], from: usize) -> Result<(Frame, Result<Message, Fault>), NoFrame> {
    let mut slots: Slots = [Slot { count: 0, text: &[] }; 16];
    let frame = next_frame(bytes, from, |tag, text| {
        if let Some(place) = place_of(tag) {
            let slot = &mut slots[place];
            if slot.count == 0 {
                slot.text = text;
            }
            slot.count += 1;
        }
    })?;
    if !frame.sound {
        return Err(NoFrame::Broken);
    }
    let kind = kind_of(slots[4].text);
    let answer = match kind {
        Kind::Admin => Ok(Message::Admin),
        Kind::Other => Ok(Message::Other),
        _ => match first_fault(&slots, kind) {
            Some(fault) => Err(fault),
            None => Ok(message_of(&slots, kind)),
        },
    };
    Ok((frame, answer))
}

/// To whom a message is written, with which number and which time.
struct Stamp {
    target: Id,
    seq: u32,
    time: Id,
}

struct Writer {
    bytes: [u8; ROOM],
    end: usize,
}

impl Writer {
    fn put_text(&mut self, text: &[u8]) {
        self.bytes[self.end..self.end + text.len()].copy_from_slice(text);
        self.end += text.len();
    }

    fn put_number(&mut self, number: usize) {
        let (digits, at) = digits_of(number);
        self.put_text(&digits[at..]);
    }

    /// Writes the head before the body and CheckSum (10) behind it.
    fn finish(&mut self) -> &[u8] {
        let end = self.end;
        let (digits, at) = digits_of(end - BODY_FROM);
        self.bytes[BODY_FROM - 1] = 1;
        let digits_from = BODY_FROM - 1 - (20 - at);
        self.bytes[digits_from..BODY_FROM - 1].copy_from_slice(&digits[at..]);
        let start = digits_from - BEGIN.len();
        self.bytes[start..digits_from].copy_from_slice(BEGIN);
        let sum = checksum(&self.bytes[start..end]);
        let digits = [b'0' + sum / 100, b'0' + sum / 10 % 10, b'0' + sum % 10];
        self.put_text(b"10=");
        self.put_text(&digits);
        self.put_text(b"\x01");
        &self.bytes[start..self.end]
    }
}

/// The digits of a number stand at the end, from this place on.
fn digits_of(number: usize) -> ([u8; 20], usize) {
    let mut digits = [0; 20];
    let mut at = digits.len();
    let mut rest = number;
    loop {
        at -= 1;
        digits[at] = b'0' + (rest % 10) as u8;
        rest /= 10;
        if rest == 0 {
            return (digits, at);
        }
    }
}

/// Writes the message that passes another on. A field that is passed on is copied as it stands.
#[inline(never)]
fn write_forward<'a>(to: &'a mut Writer, bytes: &[u8], frame: Frame, stamp: &Stamp) -> &'a [u8] {
    let body = &bytes[frame.body_from..frame.body_to];
    to.end = BODY_FROM;
    let mut at = 0;
    while let Some((tag, _, value_to)) = first_field(&body[at..]) {
        let end = at + value_to + 1;
        match tag {
            35 if at == 0 => {
                to.put_text(&body[..end]);
                to.put_text(b"49=GATE\x0156=");
                to.put_text(stamp.target.bytes());
                to.put_text(b"\x0134=");
                to.put_number(stamp.seq as usize);
                to.put_text(b"\x0152=");
                to.put_text(stamp.time.bytes());
                to.put_text(b"\x01");
            }
            35 | 49 | 56 | 34 | 52 => {}
            _ => to.put_text(&body[at..end]),
        }
        at = end;
    }
    to.finish()
}

fn text_number(text: &[u8]) -> u64 {
    let len = text.len();
    if len < 3 {
        return len as u64;
    }
    len as u64 + u64::from(text[len - 2]) * 10_000 + u64::from(text[len - 3]) * 1_000_000
}

fn id_number(id: &Id) -> u64 {
    let bytes = id.bytes();
    if bytes.is_empty() { 0 } else { bytes.len() as u64 + u64::from(bytes[bytes.len() - 1]) }
}

fn head_number(head: &Head) -> u64 {
    id_number(&head.sender) + id_number(&head.target) + id_number(&head.time) + u64::from(head.seq)
}

fn terms_number(terms: &Terms) -> u64 {
    let kind = if terms.limit { 2 } else { 1 };
    id_number(&terms.symbol) + u64::from(terms.side) + terms.quantity + kind + terms.price
}

fn exec_number(exec: &Exec) -> u64 {
    match exec {
        Exec::New => 1,
        Exec::Canceled => 2,
        Exec::Replaced => 3,
        Exec::Rejected => 4,
        Exec::Expired => 5,
        Exec::Trade { quantity, price } => quantity + price,
        Exec::Else => 6,
    }
}

fn message_number(message: &Message) -> u64 {
    match message {
        Message::New { head, id, account, terms } => {
            head_number(head) + id_number(id) + id_number(account) + terms_number(terms)
        }
        Message::Cancel { head, id, orig } => head_number(head) + id_number(id) + id_number(orig),
        Message::Replace { head, id, orig, account, terms } => {
            let account = account.as_ref().map_or(0, id_number);
            head_number(head) + id_number(id) + id_number(orig) + account + terms_number(terms)
        }
        Message::Report { head, id, exec } => {
            head_number(head) + id.as_ref().map_or(0, id_number) + exec_number(exec)
        }
        Message::CancelReject { head, id } => head_number(head) + id_number(id),
        Message::Admin | Message::Other => 0,
    }
}

/// One round of the work: how many answers there were, and the sum of their numbers.
fn do_round(work: &str, to: &mut Writer, bytes: &[u8], stamp: &Stamp) -> (u64, u64) {
    let (mut count, mut number, mut from) = (0, 0, 0);
    loop {
        let frame = if work == "find" {
            let Ok(frame) = next_frame(bytes, from, |_, _| {}) else {
                return (count, number);
            };
            number += frame.body_to as u64;
            frame
        } else {
            let Ok((frame, answer)) = read_next(bytes, from) else {
                return (count, number);
            };
            match answer {
                Ok(message) => number += message_number(&message),
                Err(fault) => number += u64::from(fault.tag) + u64::from(fault.reason),
            }
            if work == "forward" {
                number += text_number(write_forward(to, bytes, frame, stamp));
            }
            frame
        };
        count += 1;
        from = frame.body_to + 7;
    }
}

fn main() {
    let words: Vec<String> = std::env::args().collect();
    let (file, work) = (&words[1], words[2].as_str());
    let rounds: u32 = words[3].parse().unwrap();
    let bytes = std::fs::read(file).unwrap();
    let (Ok(target), Ok(time)) = (Id::read(b"VENUE"), Id::read(b"20240102-10:00:00")) else {
        return;
    };
    let stamp = Stamp { target, seq: 1_234_567, time };
    let mut to = Writer { bytes: [0; ROOM], end: 0 };
    let (mut count, mut number) = (0u64, 0u64);
    let start = Instant::now();
    for _ in 0..rounds {
        let (more, sum) = do_round(work, &mut to, &bytes, &stamp);
        count += more;
        number = number.wrapping_add(sum);
    }
    println!("{count} {} {number}", start.elapsed().as_nanos());
}
