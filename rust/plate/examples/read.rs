fn main() -> Result<(), plate::Refused> {
    let plate::Family { n, g, .. } = plate::family(1).unwrap();
    let word = [1, 1, 0, 1, 1, 0, 1];
    let mut message = [0; 4];
    let mended = plate::decode_systematic(n, g, 1, &word, &mut message)?;
    println!("message {message:?}, {mended} cell mended");
    Ok(())
}
