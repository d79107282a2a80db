use nt2::{CopyTable, LONGEST_HELLO_ANSWER, Received, Refusal, Scalar, ServerTable, Type};

fn main() -> Result<(), Refusal> {
    let mut out = [0; LONGEST_HELLO_ANSWER];
    let (mut server, mut copy) = (ServerTable::new(), CopyTable::new());
    server.create(b"tare", Type::Boolean, &[1], &mut out)?;
    server.open(3)?; // connection 3, which then says hello for revision 2.0
    if let Received::Done { sent, .. } = server.receive(3, &[0x01, 0x02, 0x00], &mut out)? {
        copy.receive_all(sent.bytes)?; // what goes to the connections in sent.recipients
    }
    assert_eq!(copy.read(0)?, Scalar::Boolean(true));
    Ok(())
}
