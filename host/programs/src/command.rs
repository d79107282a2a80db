//! The commands of the client program.

use crate::DEFAULT_ADDRESS;
use crate::client::Client;
use crate::failure::Failure;
use crate::listing::{entry_line, table_lines};
use crate::value::{encode_value, type_of};
use nt2::{Entry, Type};
use std::io::Write;

const USAGE: &str = "usage: nt2-client [--server ADDRESS] COMMAND
  list                        print the entries
  watch                       print them, and then each assignment or update
  create NAME TYPE VALUE...   create an entry
  write NAME VALUE...         write an entry's value
TYPE: boolean, double, string, booleans, doubles or strings";

enum Command<'a> {
    List,
    Watch,
    Create { name: &'a str, value_type: Type, value: Vec<u8> },
    Write { name: &'a str, words: &'a [&'a str] },
}

/// Does what the arguments say. Lines are printed to the output.
pub fn run(arguments: &[&str], out: &mut impl Write) -> Result<(), Failure> {
    let (server, words) = match arguments {
        ["--server", server, words @ ..] => (*server, words),
        words => (DEFAULT_ADDRESS, words),
    };
    let command = command(words)?;
    let client = Client::connect(server)?;
    match command {
        Command::List => print_table(&client, out),
        Command::Watch => watch(client, out),
        Command::Create { name, value_type, value } => {
            create(client, name, value_type, &value, out)
        }
        Command::Write { name, words } => write(client, name, words, out),
    }
}

fn command<'a>(words: &'a [&'a str]) -> Result<Command<'a>, Failure> {
    Ok(match words {
        ["list"] => Command::List,
        ["watch"] => Command::Watch,
        ["create", name, word, values @ ..] => {
            let no_type = || Failure::Usage(format!("{word:?} is no type"));
            let value_type = type_of(word).ok_or_else(no_type)?;
            Command::Create { name, value_type, value: encode_value(value_type, values)? }
        }
        ["write", name, words @ ..] => Command::Write { name, words },
        _ => return Err(Failure::Usage(USAGE.into())),
    })
}

fn watch(mut client: Client, out: &mut impl Write) -> Result<(), Failure> {
    print_table(&client, out)?;
    while let Some(id) = client.next_entry()? {
        print_entry(&client, id, out)?;
    }
    Ok(())
}

fn create(
    mut client: Client,
    name: &str,
    value_type: Type,
    value: &[u8],
    out: &mut impl Write,
) -> Result<(), Failure> {
    let id = client.create(name.as_bytes(), value_type, value)?;
    print_entry(&client, id, out)
}

fn write(client: Client, name: &str, words: &[&str], out: &mut impl Write) -> Result<(), Failure> {
    let held = client.copy().entries().find(|(_, entry)| entry.name == name.as_bytes());
    let Some((id, Entry { value_type, .. })) = held else {
        return Err(Failure::NoEntry(name.into()));
    };
    let value = encode_value(value_type, words)?;
    let number = client.write(id, &value)?;
    print(&entry_line(id, &Entry { name: name.as_bytes(), value_type, number, value: &value }), out)
}

fn print_table(client: &Client, out: &mut impl Write) -> Result<(), Failure> {
    table_lines(client.copy(), client.taken()).iter().try_for_each(|line| print(line, out))
}

fn print_entry(client: &Client, id: u16, out: &mut impl Write) -> Result<(), Failure> {
    match client.copy().entry(id) {
        Some(entry) => print(&entry_line(id, &entry), out),
        None => Ok(()),
    }
}

fn print(line: &str, out: &mut impl Write) -> Result<(), Failure> {
    writeln!(out, "{line}").map_err(Failure::Output)
}
