//! What is tested: every public call over lent memory.

use nt2_sys::{Answer, Copied, Delivered, Fields, LentTable, Reason, Replayed, Scalar};

/// An implementation of the table server.
pub trait Implementation {
    const NAME: &'static str;

    fn fresh(table: LentTable<'_>, marks: &mut [u8]) -> Answer;
    fn open(table: LentTable<'_>, marks: &mut [u8], connection: usize) -> Answer;
    fn leave(table: LentTable<'_>, marks: &mut [u8], connection: usize) -> Answer;
    fn receive(
        table: LentTable<'_>,
        marks: &mut [u8],
        connection: usize,
        message: &[u8],
        out: &mut [u8],
    ) -> Answer;
    fn deliver(
        table: LentTable<'_>,
        marks: &mut [u8],
        connection: usize,
        input: &[u8],
        out: &mut [u8],
    ) -> Delivered;
    fn replay(table: LentTable<'_>, marks: &mut [u8], record: &[u8]) -> Replayed;
    fn why(table: LentTable<'_>, marks: &mut [u8], connection: usize, message: &[u8]) -> Reason;
    fn save(table: LentTable<'_>, out: &mut [u8]) -> Answer;
    fn load(table: LentTable<'_>, marks: &mut [u8], saved: &[u8]) -> Answer;
    fn create(
        table: LentTable<'_>,
        marks: &mut [u8],
        name: &[u8],
        type_code: u8,
        value: &[u8],
        out: &mut [u8],
    ) -> Answer;
    fn write(
        table: LentTable<'_>,
        marks: &mut [u8],
        id: u16,
        value: &[u8],
        out: &mut [u8],
    ) -> Answer;
    fn read(table: LentTable<'_>, id: u16) -> Scalar;
    #[allow(clippy::too_many_arguments)]
    fn encode(
        kind: u8,
        revision: u16,
        name: &[u8],
        type_code: u8,
        id: u16,
        entry_number: u16,
        value: &[u8],
        out: &mut [u8],
    ) -> Answer;
    fn decode(bytes: &[u8], update_type: u8) -> Fields;
    fn copy_fresh(table: LentTable<'_>) -> Answer;
    fn copy_receive(table: LentTable<'_>, message: &[u8]) -> Copied;
}

/// Implements the trait by a module's functions of the same names; those that only read a table are
/// given.
macro_rules! implementation_by {
    ($implementation:ty, $name:literal, $module:path, $read:expr, $save:expr) => {
        impl Implementation for $implementation {
            const NAME: &'static str = $name;

            fn fresh(table: LentTable<'_>, marks: &mut [u8]) -> Answer {
                use $module as calls;
                calls::fresh(table, marks)
            }

            fn open(table: LentTable<'_>, marks: &mut [u8], connection: usize) -> Answer {
                use $module as calls;
                calls::open(table, marks, connection)
            }

            fn leave(table: LentTable<'_>, marks: &mut [u8], connection: usize) -> Answer {
                use $module as calls;
                calls::leave(table, marks, connection)
            }

            fn receive(
                table: LentTable<'_>,
                marks: &mut [u8],
                connection: usize,
                message: &[u8],
                out: &mut [u8],
            ) -> Answer {
                use $module as calls;
                calls::receive(table, marks, connection, message, out)
            }

            fn deliver(
                table: LentTable<'_>,
                marks: &mut [u8],
                connection: usize,
                input: &[u8],
                out: &mut [u8],
            ) -> Delivered {
                use $module as calls;
                calls::deliver(table, marks, connection, input, out)
            }

            fn replay(table: LentTable<'_>, marks: &mut [u8], record: &[u8]) -> Replayed {
                use $module as calls;
                calls::replay(table, marks, record)
            }

            fn why(
                table: LentTable<'_>,
                marks: &mut [u8],
                connection: usize,
                message: &[u8],
            ) -> Reason {
                use $module as calls;
                calls::why(table, marks, connection, message)
            }

            fn save(table: LentTable<'_>, out: &mut [u8]) -> Answer {
                $save(table, out)
            }

            fn load(table: LentTable<'_>, marks: &mut [u8], saved: &[u8]) -> Answer {
                use $module as calls;
                calls::load(table, marks, saved)
            }

            fn create(
                table: LentTable<'_>,
                marks: &mut [u8],
                name: &[u8],
                type_code: u8,
                value: &[u8],
                out: &mut [u8],
            ) -> Answer {
                use $module as calls;
                calls::create(table, marks, name, type_code, value, out)
            }

            fn write(
                table: LentTable<'_>,
                marks: &mut [u8],
                id: u16,
                value: &[u8],
                out: &mut [u8],
            ) -> Answer {
                use $module as calls;
                calls::write(table, marks, id, value, out)
            }

            fn read(table: LentTable<'_>, id: u16) -> Scalar {
                $read(table, id)
            }

            fn encode(
                kind: u8,
                revision: u16,
                name: &[u8],
                type_code: u8,
                id: u16,
                entry_number: u16,
                value: &[u8],
                out: &mut [u8],
            ) -> Answer {
                use $module as calls;
                calls::encode(kind, revision, name, type_code, id, entry_number, value, out)
            }

            fn decode(bytes: &[u8], update_type: u8) -> Fields {
                use $module as calls;
                calls::decode(bytes, update_type)
            }

            fn copy_fresh(table: LentTable<'_>) -> Answer {
                use $module as calls;
                calls::copy_fresh(table)
            }

            fn copy_receive(table: LentTable<'_>, message: &[u8]) -> Copied {
                use $module as calls;
                calls::copy_receive(table, message)
            }
        }
    };
}

/// The reference in plain safe Rust.
pub struct Reference;

implementation_by!(Reference, "reference", reference, reference::read, reference::save);

/// libnt2.a.
#[cfg(feature = "library")]
pub struct Library;

#[cfg(feature = "library")]
implementation_by!(
    Library,
    "library",
    nt2::lent,
    |table: LentTable<'_>, id| nt2::lent::read(table.heads, table.bytes, table.count, id),
    |table: LentTable<'_>, out| nt2::lent::save(table.heads, table.bytes, table.count, out)
);
