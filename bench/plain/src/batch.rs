//! A batch: a series of texts, each as its length in four bytes, big-endian,
//! and then its bytes.

/// The texts of a batch; an error if its last one is cut off.
pub fn texts(mut batch: &[u8]) -> Result<Vec<&[u8]>, String> {
    let mut texts = Vec::new();
    while !batch.is_empty() {
        let (length, rest) = batch.split_first_chunk().ok_or("the batch ends inside a length")?;
        let length = u32::from_be_bytes(*length) as usize;
        let (text, rest) = rest.split_at_checked(length).ok_or("the batch ends inside a text")?;
        texts.push(text);
        batch = rest;
    }
    Ok(texts)
}
