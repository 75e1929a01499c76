//! Writes small TIFF files: any fields, in either byte order, with the directory before or behind the samples.

use iiif_pixel::NoMemory;
use std::alloc::Global;

/// A field: its tag, its type and its values. Offsets of strips and tiles count from the first sample.
#[derive(Clone, Copy)]
pub struct Field(pub u16, pub u16, pub &'static [u32]);

/// How a file is written.
#[derive(Clone, Copy)]
pub struct Form {
    pub high_first: bool,
    pub directory_first: bool,
}

/// The plain form: low bytes first, the directory behind the samples.
pub const PLAIN: Form = Form {
    high_first: false,
    directory_first: false,
};

impl Form {
    fn short(self, n: u16) -> [u8; 2] {
        if self.high_first {
            n.to_be_bytes()
        } else {
            n.to_le_bytes()
        }
    }

    fn long(self, n: usize) -> [u8; 4] {
        let n = (n & 0xffff_ffff) as u32;
        if self.high_first {
            n.to_be_bytes()
        } else {
            n.to_le_bytes()
        }
    }

    fn put_value(self, out: &mut Vec<u8>, kind: u16, value: usize) -> Result<(), NoMemory> {
        match kind {
            1 => out.extend_from_slice(&[(value & 0xff) as u8]),
            3 => out.extend_from_slice(&self.short((value & 0xffff) as u16)),
            _ => out.extend_from_slice(&self.long(value)),
        }
    }
}

/// The bytes of a field's values that do not fit its entry.
fn outside_len(field: Field) -> usize {
    let size = match field.1 {
        1 => 1usize,
        3 => 2,
        _ => 4,
    };
    let len = field.2.len().wrapping_mul(size);
    if len <= 4 { 0 } else { len }
}

/// Where the directory, the values outside of it and the samples of a file begin.
#[derive(Clone, Copy)]
struct Starts {
    directory: usize,
    outside: usize,
    samples: usize,
}

/// The places in a file with these fields and so many bytes of samples.
fn places(form: Form, fields: &[Field], samples: usize) -> Starts {
    let mut outside_size = 0usize;
    for field in fields {
        outside_size = outside_size.wrapping_add(outside_len(*field));
    }
    let directory_size = fields.len().wrapping_mul(12).wrapping_add(6);
    let outside = if form.directory_first {
        directory_size.wrapping_add(8)
    } else {
        samples.wrapping_add(8)
    };
    let behind = outside.wrapping_add(outside_size);
    Starts {
        directory: if form.directory_first { 8 } else { behind },
        outside,
        samples: if form.directory_first { behind } else { 8 },
    }
}

/// Puts a field's values, where offsets count from this place.
fn put_values(
    file: &mut Vec<u8>,
    form: Form,
    field: Field,
    samples_at: usize,
) -> Result<(), NoMemory> {
    let Field(tag, kind, numbers) = field;
    let start = if tag == 273 || tag == 324 {
        samples_at
    } else {
        0
    };
    for number in numbers {
        form.put_value(file, kind, start.wrapping_add(*number as usize))?;
    }
    Ok(())
}

/// Puts zeros up to a length.
fn pad(file: &mut Vec<u8>, len: usize) -> Result<(), NoMemory> {
    if file.len() < len {
        file.resize(len, 0)?;
    }
    Ok(())
}

/// Puts an entry: its values, or where they stand.
fn put_entry(
    file: &mut Vec<u8>,
    form: Form,
    field: Field,
    samples_at: usize,
    outside_at: usize,
) -> Result<(), NoMemory> {
    let end = file.len().wrapping_add(12);
    file.extend_from_slice(&form.short(field.0))?;
    file.extend_from_slice(&form.short(field.1))?;
    file.extend_from_slice(&form.long(field.2.len()))?;
    if outside_len(field) > 0 {
        return file.extend_from_slice(&form.long(outside_at));
    }
    put_values(file, form, field, samples_at)?;
    pad(file, end)
}

/// Puts the directory.
fn put_directory(
    file: &mut Vec<u8>,
    form: Form,
    fields: &[Field],
    places: Starts,
) -> Result<(), NoMemory> {
    file.extend_from_slice(&form.short((fields.len() & 0xffff) as u16))?;
    let mut outside = places.outside;
    for field in fields {
        put_entry(file, form, *field, places.samples, outside)?;
        outside = outside.wrapping_add(outside_len(*field));
    }
    file.extend_from_slice(&[0; 4])
}

/// Puts the values that do not fit their entries.
fn put_outside(
    file: &mut Vec<u8>,
    form: Form,
    fields: &[Field],
    places: Starts,
) -> Result<(), NoMemory> {
    for field in fields {
        if outside_len(*field) > 0 {
            put_values(file, form, *field, places.samples)?;
        }
    }
    Ok(())
}

/// Puts the first eight bytes, which say where the directory is.
fn put_header(file: &mut Vec<u8>, form: Form, directory_at: usize) -> Result<(), NoMemory> {
    let mark = if form.high_first { *b"MM" } else { *b"II" };
    file.extend_from_slice(&mark)?;
    file.extend_from_slice(&form.short(42))?;
    file.extend_from_slice(&form.long(directory_at))
}

/// Puts all of a file.
fn put_file(
    file: &mut Vec<u8>,
    form: Form,
    fields: &[Field],
    samples: &[u8],
) -> Result<(), NoMemory> {
    let places = places(form, fields, samples.len());
    put_header(file, form, places.directory)?;
    if form.directory_first {
        put_directory(file, form, fields, places)?;
        put_outside(file, form, fields, places)?;
        return file.extend_from_slice(samples);
    }
    file.extend_from_slice(samples)?;
    put_outside(file, form, fields, places)?;
    put_directory(file, form, fields, places)
}

/// A file with these fields and these bytes of samples; none where memory is wanted.
pub fn write_file(alloc: Global, form: Form, fields: &[Field], samples: &[u8]) -> Option<Vec<u8>> {
    let mut file = Vec::new(alloc);
    match put_file(&mut file, form, fields, samples) {
        Ok(()) => Some(file),
        Err(_) => None,
    }
}
