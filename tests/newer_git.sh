#!/bin/sh
# Unpacks the git of Debian's unstable, with the libraries that it needs, in a directory of its own, and runs a command with it first
# on PATH, or tests/check_attr_tool.sh. Nothing is installed. By hand: it needs the network.
# usage: newer_git.sh [COMMAND..]
# CHECK_ATTR and YEKTROD_LIB_DIR are those of tests/check_attr_tool.sh.
set -eu
start=$PWD
top=$(cd "$(dirname "$0")/.." && pwd)
room=$(mktemp -d)
trap 'rm -rf "$room"' EXIT
# The comparison runs git as another user, too.
chmod 711 "$room"
mkdir "$room/lists" "$room/cache" "$room/bin" "$room/root"
key=/usr/share/keyrings/debian-archive-keyring.gpg
echo "deb [signed-by=$key] http://deb.debian.org/debian unstable main" >"$room/sources"
cat >"$room/apt.conf" <<END_OF_CONF
Dir::Etc::SourceList "$room/sources";
Dir::Etc::SourceParts "-";
Dir::State::Lists "$room/lists";
Dir::Cache "$room/cache";
APT::Sandbox::User "";
END_OF_CONF
cd "$room"
APT_CONFIG=$room/apt.conf
export APT_CONFIG
apt-get -q -q update
apt-get -q -q download git libc6 libpcre2-8-0 zlib1g
unset APT_CONFIG
for package in ./*.deb; do dpkg-deb -x "$package" root; done

# Git, started by the loader that came with it. Git starts itself in the same way.
cat >bin/git <<END_OF_GIT
#!/bin/sh
GIT_EXEC_PATH=$room/root/usr/lib/git-core
export GIT_EXEC_PATH
case \${0##*/} in git-*) set -- "\${0##*/git-}" "\$@" ;; esac
exec "$room/root/usr/lib64/ld-linux-x86-64.so.2" --library-path "$room/root/usr/lib/x86_64-linux-gnu" \\
    "$room/root/usr/bin/git" "\$@"
END_OF_GIT
chmod +x bin/git
rm root/usr/lib/git-core/git
cp bin/git root/usr/lib/git-core/git
PATH=$room/bin:$PATH
if [ $# = 0 ]; then
    git version
    set -- "$top/tests/check_attr_tool.sh"
fi
cd "$start"
"$@"
