//! What the sources 000 to 004 print and document 01 keeps, run on the library and on the second program: token forms, worked
//! encodings, packet layouts, UIDs, column numbers, first values, statuses, types, and the tables of reads and writes. A
//! number in brackets behind a table or a section is a line of the source's copy.
//!
//! Printed, but decided otherwise by document 01 or the settled readings, and so left out:
//!
//! - 003 Tables 05, 06, 08, 11, 13 (1252): signed integers and continued values; 002 and 000 have S clear, so they are broken.
//! - 003 Tables 11 and 13 (1344, 1375): a length of 0 is no legal value of a medium or long atom; D0 00 and E2 00 00 00 are empty bytes.
//! - 003 3.2.2.3.3.4: the number after a host's FB is ignored, and one transaction too many aborts the session; it is 00, and
//!   a second FB is answered FB 01.
//! - 003 3.2.2.3.3.5 (1448, 1450): FC 01 is mirrored, and a number over 01 aborts the transaction; FC 01 is answered FC 00 where one was
//!   open, and other numbers are a broken payload.
//! - 003 3.2.2.3.4 (1471): tokens after an end of session are ignored; nothing may follow but FF.
//! - 003 3.2.2.4.2: an unexpected token in a method's header or parameters may only fail the method; it is a broken payload.
//! - 003 3.2.4.2 (1957): a status list of a host that does not begin with 00 aborts the method; it is a broken payload.
//! - 003 3.2.4.2: a refused StartSession is answered with the host's number; its list is empty.
//! - 003 Table 128: resets 3 to 15 are reserved; 3 is Programmatic by 000 and 004.
//! - 003 Table 244 (12989): TPerInfo's row is 00 00 02 01 00 00 00 01; 002, 000 and 004 have 00 03 00 01, and 002 goes first.
//! - 003 Table 230 (12115): a read of locked sectors beyond the MBR gives zeros; it is refused.
//! - 003 Table 230, 231: what crosses from a locked range to one that is not has no readable cell in the copy.
//! - 002 Table 27, 000 Table 31, 004: TryLimit 0; every TryLimit is 5. 002 Table 16: SID's TryLimit and Tries are the vendor's.
//! - 002 5.2.3.1 (3508), 000 (1440): RevertSP's KeepGlobalRangeKey, parameter 0x060000; it takes none.
//! - 000 Tables 16 and 28, 004: rows for Next, GetACL, GenKey and Random, Get by Anybody of tables, templates, methods, ACEs,
//!   SPInfo and LockingInfo, Set by Admins of ACEs and of DataStore; no such pair is in the access rows.
//! - 000 Table 17: SID's C_PIN is read by Admins too, and its CharSet; it is SID's, columns 0, 5, 6, 7.
//! - 002 Tables 31 and 32, 000 Table 35: keys; 002 4.3.7.1: DataStore. Neither is here, nor are the bytes of the MBR.
//! - 004 5.1.1 (1467): Activate's MethodID is misprinted in the copy; 002, 000 and 004 (886) have it right.

mod host;
mod media;
mod packets;
mod tables;
mod tokens;
mod uids;
