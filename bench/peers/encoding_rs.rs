//! encoding_rs, by its streaming decoders and encoders, and by the calls of its module `mem` if one side is ISO-8859-1, which the
//! Encoding Standard does not have.
use encoding_rs::{mem, Decoder, Encoder, Encoding};
use std::ffi::CStr;
use std::os::raw::{c_char, c_void};
use std::slice::{from_raw_parts, from_raw_parts_mut};

enum Peer {
    Latin1ToUtf8,
    Latin1ToUtf16,
    Utf8ToLatin1,
    Utf16ToLatin1,
    ToUtf8(Decoder),
    ToUtf16(Decoder),
    FromUtf8(Encoder),
}

/// The encoding of a name, but not if the Encoding Standard has the name only as a label of another encoding.
fn encoding(name: &str) -> Option<&'static Encoding> {
    match name {
        "US-ASCII" | "ISO-8859-1" => None,
        _ => Encoding::for_label(name.as_bytes()),
    }
}

fn opened(to: &str, from: &str) -> Option<Peer> {
    let decoder = || encoding(from).map(Encoding::new_decoder_without_bom_handling);
    match (from, to) {
        ("ISO-8859-1", "UTF-8") => Some(Peer::Latin1ToUtf8),
        ("ISO-8859-1", "UTF-16LE") => Some(Peer::Latin1ToUtf16),
        ("UTF-8", "ISO-8859-1") => Some(Peer::Utf8ToLatin1),
        ("UTF-16LE", "ISO-8859-1") => Some(Peer::Utf16ToLatin1),
        (_, "UTF-8") => decoder().map(Peer::ToUtf8),
        (_, "UTF-16LE") => decoder().map(Peer::ToUtf16),
        ("UTF-8", "UTF-16" | "UTF-16BE") => None,
        ("UTF-8", _) => encoding(to).map(|encoding| Peer::FromUtf8(encoding.new_encoder())),
        _ => None,
    }
}

/// The length of the prefix of a text that ends with a whole character, if the text is UTF-8.
fn whole(text: &[u8]) -> usize {
    let lead = text.iter().rev().take(3).position(|byte| byte & 0xC0 != 0x80);
    let start = lead.map_or(text.len(), |back| text.len() - 1 - back);
    let size = match text.get(start) {
        Some(0xF0..=0xFF) => 4,
        Some(0xE0..=0xEF) => 3,
        Some(0xC0..=0xDF) => 2,
        _ => 1,
    };
    if size > text.len() - start { start } else { text.len() }
}

/// Bytes as units of 16 bits. The harness aligns both texts, and calls take an even number of bytes.
fn units(text: &[u8]) -> &[u16] {
    unsafe { from_raw_parts(text.as_ptr().cast(), text.len() / 2) }
}

fn units_mut(out: &mut [u8]) -> &mut [u16] {
    unsafe { from_raw_parts_mut(out.as_mut_ptr().cast(), out.len() / 2) }
}

/// How many bytes are read, and how many are written.
fn converted(peer: &mut Peer, text: &[u8], out: &mut [u8]) -> (usize, usize) {
    match peer {
        Peer::Latin1ToUtf8 => (text.len(), mem::convert_latin1_to_utf8(text, out)),
        Peer::Latin1ToUtf16 => {
            mem::convert_latin1_to_utf16(text, units_mut(out));
            (text.len(), 2 * text.len())
        }
        Peer::Utf8ToLatin1 => {
            let text = &text[..whole(text)];
            match mem::is_utf8_latin1(text) {
                true => (text.len(), mem::convert_utf8_to_latin1_lossy(text, out)),
                false => (0, 0),
            }
        }
        Peer::Utf16ToLatin1 => match mem::is_utf16_latin1(units(text)) {
            true => {
                mem::convert_utf16_to_latin1_lossy(units(text), out);
                (text.len(), text.len() / 2)
            }
            false => (0, 0),
        },
        Peer::ToUtf8(decoder) => {
            let (_, used, written) = decoder.decode_to_utf8_without_replacement(text, out, false);
            (used, written)
        }
        Peer::ToUtf16(decoder) => {
            let (_, used, written) = decoder.decode_to_utf16_without_replacement(text, units_mut(out), false);
            (used, 2 * written)
        }
        Peer::FromUtf8(encoder) => {
            // The bytes are untrusted, so they have to be validated as UTF-8 first.
            let valid = unsafe { std::str::from_utf8_unchecked(&text[..Encoding::utf8_valid_up_to(text)]) };
            let (_, used, written) = encoder.encode_from_utf8_without_replacement(valid, out, false);
            (used, written)
        }
    }
}

/// # Safety
/// Names that end with a zero byte.
#[no_mangle]
pub unsafe extern "C" fn peer_open(to: *const c_char, from: *const c_char) -> *mut c_void {
    let (to, from) = (CStr::from_ptr(to).to_str().unwrap_or(""), CStr::from_ptr(from).to_str().unwrap_or(""));
    opened(to, from).map_or(std::ptr::null_mut(), |peer| Box::into_raw(Box::new(peer)).cast())
}

/// # Safety
/// What `peer_open` returned, and both texts.
#[no_mangle]
pub unsafe extern "C" fn peer_convert(peer: *mut c_void, text: *const u8, length: usize, out: *mut u8, room: usize, written: *mut usize) -> usize {
    let (used, wrote) = converted(&mut *peer.cast(), from_raw_parts(text, length), from_raw_parts_mut(out, room));
    *written += wrote;
    used
}

/// # Safety
/// What `peer_open` returned, once.
#[no_mangle]
pub unsafe extern "C" fn peer_close(peer: *mut c_void) {
    drop(Box::from_raw(peer.cast::<Peer>()));
}

#[no_mangle]
pub extern "C" fn peer_version() -> *const c_char {
    concat!("encoding_rs ", env!("ENCODING_RS"), "\0").as_ptr().cast()
}
