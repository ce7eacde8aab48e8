//! The numbers of the table "Refusals by place of checking", and those that document 02 adds.

/// "every call, grid | 1 | W, R, K or N outside its range"
pub const GRID: u32 = 1;
/// "every call, buffers | 2 | a lent length is not the grid's"
pub const LENGTH: u32 = 2;
/// "every call, air | 3 | a cell's air is 0 or above 65,535"
pub const AIR: u32 = 3;
/// "every call, tracers | 4 | a tracer's total above 268,435,455"
pub const TRACERS: u32 = 4;
/// "call's indices | 5 | tracer, cell, layer or row absent"; for a call on emitters also "an
/// absent cell, an id twice, more than 16 entries or a false sum" (document 02)
pub const INDEX: u32 = 5;
/// "emission | 6 | total would pass 268,435,455"; also "when a sum would pass 4,294,967,295"
/// (document 02)
pub const EMISSION: u32 = 6;
/// "withdrawal | 7 | cell has less than the amount"; also "when a sum would pass 4,294,967,295"
/// (document 02)
pub const WITHDRAWAL: u32 = 7;
/// "fluxes | 8 | size above 1,048,560 (zonal) or 65,535 (meridional)"
pub const FLUX: u32 = 8;
/// "zonal | 9 | no n from 1 to 16 serves"
pub const ZONAL: u32 = 9;
/// "meridional | 10 | its substep is not allowed"
pub const MERIDIONAL: u32 = 10;
/// "table | 11 | first pair not (0, 0), last not (0, 65,536), an a above 2,097,120,
/// a b above 65,536"
pub const TABLE: u32 = 11;
/// "remap | 12 | in some column edges don't rise strictly, or a new layer exceeds 65,535"
pub const REMAP: u32 = 12;
/// "program, kind | 13 | unknown kind, or record out of place"
pub const KIND: u32 = 13;
/// "program, length | 14 | input ends inside a record"
pub const RECORD_LENGTH: u32 = 14;
/// "program, grid | 15 | K·C above 2,048 or N above 2"
pub const PROGRAM_GRID: u32 = 15;
/// "16 when a flux's size exceeds the row's air" (document 02)
pub const LONG_FLUX: u32 = 16;
/// "17 when air afterwards leaves 1 to 65,535" (document 02)
pub const LONG_AIR: u32 = 17;
/// "18 when the tracer has 16 emitters or already has that id" (document 02)
pub const NO_PLACE: u32 = 18;
/// "19 when the id is absent" (document 02)
pub const NO_EMITTER: u32 = 19;
/// "20 when the given count differs from the smallest that serves" (document 02)
pub const COUNT: u32 = 20;
/// "21 when a tracer's limiter is unknown or its lo exceeds its hi" (document 02)
pub const LIMITER: u32 = 21;
/// "22 when that test fails or the left side is negative": loaded + emitted − withdrawn is not what
/// a tracer's cells sum to (document 02)
pub const BOOKS: u32 = 22;
