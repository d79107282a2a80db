//! The calls over lent memory of any size, which judge it themselves.

use nt2_sys::{
    Answer, Copied, Delivered, Fields, Head, LentTable, Reason, Replayed, Scalar, nt2_copy_fresh,
    nt2_copy_receive, nt2_create, nt2_decode, nt2_deliver, nt2_encode, nt2_fresh, nt2_leave,
    nt2_load, nt2_open, nt2_read, nt2_receive, nt2_replay, nt2_save, nt2_why, nt2_write,
};

// SAFETY of all calls: each pointer stands beside the length of the slice that it comes from, no
// two of the slices overlap, and a call stays within them and keeps none of them. What is lent as
// shared to `nt2_why`, `nt2_save` and `nt2_read` is only read by them.

/// The count is 0 and all connections are closed.
pub fn fresh(table: LentTable<'_>, marks: &mut [u8]) -> Answer {
    unsafe {
        nt2_fresh(
            table.heads.as_mut_ptr(),
            table.heads.len(),
            table.bytes.as_mut_ptr(),
            table.bytes.len(),
            table.count,
            marks.as_mut_ptr(),
            marks.len(),
        )
    }
}

/// Opens a closed connection.
pub fn open(table: LentTable<'_>, marks: &mut [u8], connection: usize) -> Answer {
    unsafe {
        nt2_open(
            table.heads.as_mut_ptr(),
            table.heads.len(),
            table.bytes.as_mut_ptr(),
            table.bytes.len(),
            table.count,
            marks.as_mut_ptr(),
            marks.len(),
            connection,
        )
    }
}

/// Closes a connection that is open or greeted.
pub fn leave(table: LentTable<'_>, marks: &mut [u8], connection: usize) -> Answer {
    unsafe {
        nt2_leave(
            table.heads.as_mut_ptr(),
            table.heads.len(),
            table.bytes.as_mut_ptr(),
            table.bytes.len(),
            table.count,
            marks.as_mut_ptr(),
            marks.len(),
            connection,
        )
    }
}

/// Takes one message of a client.
pub fn receive(
    table: LentTable<'_>,
    marks: &mut [u8],
    connection: usize,
    message: &[u8],
    out: &mut [u8],
) -> Answer {
    unsafe {
        nt2_receive(
            table.heads.as_mut_ptr(),
            table.heads.len(),
            table.bytes.as_mut_ptr(),
            table.bytes.len(),
            table.count,
            marks.as_mut_ptr(),
            marks.len(),
            connection,
            message.as_ptr(),
            message.len(),
            out.as_mut_ptr(),
            out.len(),
        )
    }
}

/// Takes a client's messages in order, at most 64 of them.
pub fn deliver(
    table: LentTable<'_>,
    marks: &mut [u8],
    connection: usize,
    input: &[u8],
    out: &mut [u8],
) -> Delivered {
    unsafe {
        nt2_deliver(
            table.heads.as_mut_ptr(),
            table.heads.len(),
            table.bytes.as_mut_ptr(),
            table.bytes.len(),
            table.count,
            marks.as_mut_ptr(),
            marks.len(),
            connection,
            input.as_ptr(),
            input.len(),
            out.as_mut_ptr(),
            out.len(),
        )
    }
}

/// Says why a message of a client would be taken, ignored or refused. Changes nothing.
pub fn why(table: LentTable<'_>, marks: &mut [u8], connection: usize, message: &[u8]) -> Reason {
    why_by_reading(table.heads, table.bytes, table.count, marks, connection, message)
}

/// [`why`] with memory that is not lent for writing: the call only reads it.
pub fn why_by_reading(
    heads: &[Head],
    bytes: &[u8],
    count: &u16,
    marks: &[u8],
    connection: usize,
    message: &[u8],
) -> Reason {
    unsafe {
        nt2_why(
            heads.as_ptr().cast_mut(),
            heads.len(),
            bytes.as_ptr().cast_mut(),
            bytes.len(),
            std::ptr::from_ref(count).cast_mut(),
            marks.as_ptr().cast_mut(),
            marks.len(),
            connection,
            message.as_ptr(),
            message.len(),
        )
    }
}

/// Makes a fresh start and runs a line record.
pub fn replay(table: LentTable<'_>, marks: &mut [u8], record: &[u8]) -> Replayed {
    unsafe {
        nt2_replay(
            table.heads.as_mut_ptr(),
            table.heads.len(),
            table.bytes.as_mut_ptr(),
            table.bytes.len(),
            table.count,
            marks.as_mut_ptr(),
            marks.len(),
            record.as_ptr(),
            record.len(),
        )
    }
}

/// Writes the saved form of a table. The call only reads the table.
pub fn save(heads: &[Head], bytes: &[u8], count: &u16, out: &mut [u8]) -> Answer {
    unsafe {
        nt2_save(
            heads.as_ptr().cast_mut(),
            heads.len(),
            bytes.as_ptr().cast_mut(),
            bytes.len(),
            std::ptr::from_ref(count).cast_mut(),
            out.as_mut_ptr(),
            out.len(),
        )
    }
}

/// Loads a saved table.
pub fn load(table: LentTable<'_>, marks: &mut [u8], saved: &[u8]) -> Answer {
    unsafe {
        nt2_load(
            table.heads.as_mut_ptr(),
            table.heads.len(),
            table.bytes.as_mut_ptr(),
            table.bytes.len(),
            table.count,
            marks.as_mut_ptr(),
            marks.len(),
            saved.as_ptr(),
            saved.len(),
        )
    }
}

/// Creates an entry for the plant's own code.
pub fn create(
    table: LentTable<'_>,
    marks: &mut [u8],
    name: &[u8],
    type_code: u8,
    value: &[u8],
    out: &mut [u8],
) -> Answer {
    unsafe {
        nt2_create(
            table.heads.as_mut_ptr(),
            table.heads.len(),
            table.bytes.as_mut_ptr(),
            table.bytes.len(),
            table.count,
            marks.as_mut_ptr(),
            marks.len(),
            name.as_ptr(),
            name.len(),
            type_code,
            value.as_ptr(),
            value.len(),
            out.as_mut_ptr(),
            out.len(),
        )
    }
}

/// Writes an entry's value for the plant's own code. One that has the same bytes is ignored.
pub fn write(
    table: LentTable<'_>,
    marks: &mut [u8],
    id: u16,
    value: &[u8],
    out: &mut [u8],
) -> Answer {
    unsafe {
        nt2_write(
            table.heads.as_mut_ptr(),
            table.heads.len(),
            table.bytes.as_mut_ptr(),
            table.bytes.len(),
            table.count,
            marks.as_mut_ptr(),
            marks.len(),
            id,
            value.as_ptr(),
            value.len(),
            out.as_mut_ptr(),
            out.len(),
        )
    }
}

/// Reads an entry by ID. The call only reads its memory.
pub fn read(heads: &[Head], bytes: &[u8], count: &u16, id: u16) -> Scalar {
    unsafe {
        nt2_read(
            heads.as_ptr().cast_mut(),
            heads.len(),
            bytes.as_ptr().cast_mut(),
            bytes.len(),
            std::ptr::from_ref(count).cast_mut(),
            id,
        )
    }
}

/// Writes a message from its fields.
#[allow(clippy::too_many_arguments)]
pub fn encode(
    kind: u8,
    revision: u16,
    name: &[u8],
    type_code: u8,
    id: u16,
    entry_number: u16,
    value: &[u8],
    out: &mut [u8],
) -> Answer {
    unsafe {
        nt2_encode(
            kind,
            revision,
            name.as_ptr(),
            name.len(),
            type_code,
            id,
            entry_number,
            value.as_ptr(),
            value.len(),
            out.as_mut_ptr(),
            out.len(),
        )
    }
}

/// Reads a message's fields. An update's type is given.
pub fn decode(bytes: &[u8], update_type: u8) -> Fields {
    unsafe { nt2_decode(bytes.as_ptr(), bytes.len(), update_type) }
}

/// The copy's count is 0.
pub fn copy_fresh(table: LentTable<'_>) -> Answer {
    unsafe {
        nt2_copy_fresh(
            table.heads.as_mut_ptr(),
            table.heads.len(),
            table.bytes.as_mut_ptr(),
            table.bytes.len(),
            table.count,
        )
    }
}

/// The copy takes one message of a server.
pub fn copy_receive(table: LentTable<'_>, message: &[u8]) -> Copied {
    unsafe {
        nt2_copy_receive(
            table.heads.as_mut_ptr(),
            table.heads.len(),
            table.bytes.as_mut_ptr(),
            table.bytes.len(),
            table.count,
            message.as_ptr(),
            message.len(),
        )
    }
}
