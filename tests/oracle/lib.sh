# Shared by the scripts of this folder: where things are, and how a variant of the oracle is built.
set -eu
here=$(cd "$(dirname "$0")" && pwd)
crates=$here/crates
root=$(cd "$here/../.." && pwd)
out=$root/target/oracle
source=${ORACLE_SOURCE:-$root/../shared/docs/src}
ui_files="field.rs input.rs layout.rs lib.rs state.rs text.rs"
stage=$out/stage-$$
trap 'rm -rf "$stage"' EXIT

# Copies a file where it differs, so that an unchanged one is not compiled anew, and checks the copy. It is
# moved into place, since another run may be reading the old one.
put() { # from, to
    cmp -s "$1" "$2" && return
    mkdir -p "$(dirname "$2")"
    cp -f "$1" "$2.$$"
    chmod u+w "$2.$$"
    mv -f "$2.$$" "$2"
    cmp "$1" "$2"
}

# Copies all files below a folder, or the one file that it is.
put_all() { # from, to
    find "$1" -type f | while read -r from; do
        put "$from" "$2${from#"$1"}"
    done
}

# Lays out the stage: the tracked crates, one of the two kinds of renew_fixed, and the source's files as they are.
lay_stage() { # kind
    [ -d "$source" ] || { echo "the Rust source is not there; ORACLE_SOURCE says where it is" >&2; exit 2; }
    rm -rf "$stage"
    for part in Cargo.toml renew_frame renew_ui desk compare; do
        put_all "$crates/$part" "$stage/$part"
    done
    put_all "$crates/$1" "$stage/renew_fixed"
    for part in $ui_files; do
        put "$source/crates/ui/src/$part" "$stage/renew_ui/src/$part"
    done
    [ "$1" = renew_fixed ] || put "$source/crates/fixed/src/scalar.rs" "$stage/renew_fixed/src/scalar.rs"
}

# Changes a file of the stage by a sed script, which must change just so many lines.
edit() { # file, lines, sed script
    sed "$3" "$stage/$1" > "$stage/edited"
    changed=$(diff "$stage/edited" "$stage/$1" | grep -c '^<') || true
    [ "$changed" = "$2" ] || { echo "an edit changes $changed lines of $1, not $2: $3" >&2; return 1; }
    mv -f "$stage/edited" "$stage/$1"
}

# Wish 2 of document 02 on the copies of the source: the pointer is an Option, none is nowhere and the derived default.
# All that hit-tests the stored pointer asks `hover`, which hits nothing while it is nowhere. The fingerprint takes a
# number more.
patch_pointer() {
    edit renew_ui/src/input.rs 8 '
        s/pub pointer: (i32, i32),/pub pointer: Option<(i32, i32)>,/
        /pub fn handle/,/^    }/ {
            s/self.interaction.pointer = (x, y);/self.interaction.pointer = Some((x, y));/
            /let (x, y) = self.interaction.pointer;/d
            s/self.hit_test(x, y)/self.hover()/
        }
        /pub fn hover/,/^    }/ s/self.interaction.pointer;/self.interaction.pointer?;/
        /pub fn absorb/,/^    }/ {
            s/interaction.pointer\./&unwrap_or_default()./
            s/^\( *\)\(.*\).1.cast_unsigned());$/\1\2.1.cast_unsigned())\n\1.absorb_u32(u32::from(self.interaction.pointer.is_some()));/
        }'
    edit renew_ui/src/lib.rs 2 '/let (x, y) = self.interaction.pointer;/d; s/self.hit_test(x, y)/self.hover()/'
}

# Wish 5: half of a free space, which is positive there, is rounded down to a whole pixel, by division where the code
# that is proved shifts.
patch_half() {
    edit renew_ui/src/layout.rs 1 '/^fn content_main_offset/,/^}/ s|free / Fixed::from_int(2)|Fixed::from_bits(free.to_bits() / 131_072 * 65_536)|'
}

# The stage of all that follows documents 01 and 02.
fill_stage() { # kind
    lay_stage "$1"
    patch_pointer
    patch_half
}

# For the source's own pointer, which is always somewhere: both starts are its `Ui::new`.
own_pointer() {
    edit renew_ui/src/document.rs 3 '
        /pub fn at_origin/,/^    }/ { s/let mut ui/let ui/; s/ui.interaction.pointer = .*;// }
        /pub fn pointer/,/^    }/ s/self.interaction.pointer/Some(&)/'
}

# Brings a workspace to what the stage holds, builds a program of it and keeps it under another name.
build() { # workspace, package, program, name
    put_all "$stage" "$out/$1"
    rm -rf "$stage"
    (cd "$out/$1" && cargo build --quiet --offline --release --jobs "${ORACLE_JOBS:-2}" \
        --target-dir "$out/$1/target" --package "$2" --bin "$3") || return 1
    put "$out/$1/target/release/$3" "$out/bin/$4"
}

# The oracle: the source with document 01's numbers and the patch of document 02.
build_console() {
    fill_stage renew_fixed
    build plain desk console console
}

# The same with the source's own scalar.rs.
build_scalar() {
    fill_stage renew_fixed_source
    build scalar desk console console-scalar
}

# That with its one difference from document 01 set right: which end a difference stops at.
build_mended() {
    fill_stage renew_fixed_source
    edit renew_fixed/src/scalar.rs 1 '/^impl Sub/,/^}/ s/self.0 > 0/other.0 < 0/'
    build mended desk console console-mended
}

# The source as it stands: its own scalar.rs, its own pointer and fingerprint, its own bounds, no marks in the digest, and a
# focus and press that hide dead ids.
build_bare() {
    lay_stage renew_fixed_source
    own_pointer
    edit renew_ui/src/document.rs 1 '/fn digest_interaction/,/^    }/ s/\.absorb_u32(u32::from(self.pointer.*/;/'
    edit desk/src/desk.rs 1 's/self.marks.digest(self.ui.digest())/self.ui.digest()/'
    edit desk/src/desk.rs 2 's/\(MOST_NODES: u32 =\) 128/\1 1_000_000/; s/\(MOST_PATCHES: usize =\) 64/\1 65_534/'
    edit renew_ui/src/document.rs 2 '/fn stored_/,/^    }/ s/self.interaction.\(focus\|pressed\)/self.\1()/'
    build bare desk console console-bare
}

# The source's own pointer with document 01's numbers and wish 5, whose fingerprint and digest take the 1 of a placed
# pointer: the oracle has to answer alike wherever a run begins with `origin` and starts anew with it.
build_origin() {
    lay_stage renew_fixed
    own_pointer
    patch_half
    edit renew_ui/src/input.rs 1 '/pub fn absorb/,/^    }/ s/pointer.1.cast_unsigned());/pointer.1.cast_unsigned()).absorb_u32(1);/'
    build origin desk console console-origin
}

# The program that compares, which links the oracle.
build_compare() {
    fill_stage renew_fixed
    build plain compare compare compare
}
