
fn main() {
    let batch = br#"{"requests":[{"id":"a","method":"get","url":"Books"}]}"#;
    print!("{}", String::from_utf8(answered(batch, 128, 7).1).unwrap());
    assert_eq!(answered(b"", 128, 0), (1, b"fault F02 NotJson batch\n".to_vec()));
}
