#!/bin/sh
# Checks that each place which tells the version tells that of the file VERSION.
set -eu
cd "$(dirname "$0")/.."
version=$(cat VERSION)
number=$(echo "$version" | awk -F . '{ printf "0x%06x", $1 * 65536 + $2 * 256 + $3 }')
wrong=0

# wants FILE TEXT: a file with this text.
wants() {
    grep -qF -- "$2" "$1" || { echo "version: $1 does not say: $2" >&2; wrong=1; }
}

wants include/yektrod.h "The version of this header, $version:"
wants include/yektrod.h "#define YEKTROD_VERSION ${number}u"
wants crates/yektrod/src/lib.rt "/// The version, $version:"
wants crates/yektrod/src/lib.rt "    $number"
for package in yektrod check-attr; do wants "clients/rust/$package/Cargo.toml" "version = \"$version\""; done
wants clients/rust/check-attr/man/check-attr.1 ".TH CHECK-ATTR 1 \"\" \"Yektrod $version\""
wants tools/release/yektrod-script.1 ".TH YEKTROD-SCRIPT 1 \"\" \"Yektrod $version\""
wants docs/C.md "\`YEKTROD_${version%.*}\`"
wants CHANGELOG.md "## [$version]"
wants docs/VERSIONS.md "| $version |"
wants README.md "yektrod-$version-x86_64-linux.tar.gz"
wants tools/release/README.md "# Yektrod $version"
exit "$wrong"
