//! The texts of `--help`.

pub const ALL: &str = "\
arw6: what Sony ARW6 raw files hold, by the proved decoder

  arw6 tiles FILE..               list the tiles and say which of them are whole
  arw6 planes FILE.. --out DIR    write the numbers of green, red and blue, and pictures
  arw6 digest FILE.. > LIST       note a SHA-256 of each tile's planes
  arw6 digest --check LIST        say whether the files still give those planes
  arw6 records FILE..             list how long each record is and how much of it was read
  arw6 write G.npy R.npy B.npy --out FILE
                                  a frame file that decodes to exactly these planes
  arw6 COMMAND --help             more about a command
  arw6 -V, --version

FILE is a camera's .ARW file, or a frame file (frame width and height, 32-bit little-endian
each, then the strip); - is standard input. Words after -- are files, whatever they begin
with. For every command but write:

  -r, --recursive   FILE may be a folder: all .ARW and .frame files below it
  -j, --jobs N      N files at once (as many as there are cores)
  --json            results as JSON, one object a line
  --strict          damage makes the status 1
  --frame WxH       FILE is a bare strip of a frame W wide and H high (with -r: .strip)

A file that is refused or cannot be read is one line on standard error, and the others go
on. Damage (broken records) is one warning line there; spent records are none.
Status: 0 all good; 1 some file refused, unreadable or not written; 2 bad usage.
";

pub const TILES: &str = "\
arw6 tiles FILE.. [-r] [-j N] [--json] [--strict] [--frame WxH]

Decodes each tile and prints 'tiles N' and a line for each: offset and length in bytes of
the strip, x, y, width, height in the frame, then 'broken B spent S', or 'refused N'. B of
its records met a bit width above 19, which is damage; S ran past their bits, which is
ordinary on an evenly lit lining. The first tile that is refused is told on standard error.
With more than one file, the file's name and a colon come first.
";

pub const PLANES: &str = "\
arw6 planes FILE.. --out DIR [--force] [--no-picture] [-r] [-j N] [--json] [--strict]
            [--frame WxH]

Writes a folder DIR/NAME.planes for each file NAME. For tile K (from 0) it holds
  tileK.green.npy   the exact numbers, 32-bit little-endian, shape (rows, columns)
  tileK.red.npy     and tileK.blue.npy likewise
  tileK.png         a picture to look at, one pixel for each of the sensor
and tiles.json: places, sizes, digests, broken and spent records. With -r the folders below
a FILE that is a folder are kept below DIR.

One row of the green plane holds both greens of two sensor rows: at odd columns those of the
upper row, at even columns those of the lower one. Red and blue are half of what red and
blue differ from the mean of those greens. A number + 2048 is the camera's 12-bit code.

A folder appears whole or not at all. One that is there already is refused; --force
replaces it. --no-picture leaves the pictures out.
";

pub const DIGEST: &str = "\
arw6 digest FILE.. [-r] [-j N] [--json] [--strict] [--frame WxH]
arw6 digest --check LIST.. [-q, --quiet] [-j N] [--json] [--strict] [--frame WxH]

Prints for each tile a line: the digest's definition and version, the SHA-256 of coded size
and planes, tile, coded size, stopped records (broken and spent together), and the file as
it was given. docs/DIGEST.md defines all of it down to the byte.

With --check each line of the lists is made anew from its file and held against the list:
OK, FAILED, missing, unreadable or refused with its number. --quiet leaves out those that
are OK. Status 1 if any is not OK, or if a list has other lines.
";

pub const RECORDS: &str = "\
arw6 records FILE.. [-r] [-j N] [--json] [--strict] [--frame WxH]

Reads each record and prints 'tile packet record bytes allowance bits state' and a line of
these for each. Packets 0 to 3 are groups 0 to 3 of green, 4 to 7 those of red, 8 to 11
those of blue, and 12 is group 4. Tiles and records count from 0 as well; one that a packet
may lack and does is not listed.

bytes      the record's byte length
allowance  the bits that it may take, 128 for each 16 bytes that its length begins
bits       the bits that it took, the allowance at most
state      sound: read to its end. broken: met a bit width above 19, which is damage.
           spent: ran past its bits, which is ordinary on an evenly lit lining; they are all
           taken then. empty: its length is 0, nothing is read, and its numbers are 0

A tile that is refused has one line, its number and 'refused N', and the first such one is
told on standard error. One that is too large for planes (refusal 3) has its records listed.
With more than one file, the file's name and a colon come first.
";

pub const WRITE: &str = "\
arw6 write GREEN.npy RED.npy BLUE.npy --out FILE [--stream] [--height H] [--force] [--json]

Writes one tile whose planes are exactly these numbers, as a frame file (frame width and
height, 32-bit little-endian each, then a strip with a table of one tile), or with --stream
its bare stream. The planes are those of 'arw6 planes': whole numbers that fit 32 bits, rows
first. Green has R rows and w columns, red and blue have R rows and w / 2 columns; w is a
multiple of 16, R one of 4. The coded height H is 2 R, or what --height says: another even
one that has R rows, 8 n, or 8 n - 4 if H is no multiple of 16 (n is H / 16 rounded up).

Leave a margin: eight rows at the top and eight at the bottom of each plane, each constant
along the row. There the format holds values of E alone, which only about half of all
numbers are, so few drawn pictures are accepted as they come; with the margin any picture
of 12-bit codes (numbers from -2048 to 2047) is, in tiles of up to 7,400 columns.

Where a number cannot be held (refusal 25), the first one is named by plane, row and column:
where it stands, and the rows and columns that it is computed from. What it is said to be is
not the plane's number there, but what these come to. Nothing is written then. A FILE that
is there already is refused; --force replaces it.
";
