#!/usr/bin/env python3
"""Fetches the crates that a cargo workspace needs from Debian's unstable, for cargo to use without a network.

They are the packages librust-*-dev, which are unpacked and not installed. Cargo is asked for a lock file, and the crate that it
misses is fetched, with those that this one always needs, until it has all. DIRECTORY/registry then has the crates, and
DIRECTORY/config.toml is what tells cargo so.

usage: gitoxide_crates.py DIRECTORY WORKSPACE..
"""
import os
import re
import subprocess
import sys
import tomllib

ARCHIVE = 'http://deb.debian.org/debian'
KEY = '/usr/share/keyrings/debian-archive-keyring.gpg'
MISSING = re.compile(r'(?:no matching package named|searched package name:) `([^`]+)`')
NO_VERSION = re.compile(r'failed to select a version for the requirement `([\w-]+) = "([^"]*)"')


class Packages:
    """The packages of Debian's unstable: fetched into a directory, with an apt of its own."""

    def __init__(self, room):
        self.room = room
        for directory in ('lists/partial', 'cache/archives/partial', 'debs', 'root'):
            os.makedirs(f'{room}/{directory}', exist_ok=True)
        with open(f'{room}/sources.list', 'w') as file:
            file.write(f'deb [signed-by={KEY}] {ARCHIVE} unstable main\n')
        with open(f'{room}/apt.conf', 'w') as file:
            file.write(f'Dir::Etc::SourceList "{room}/sources.list";\nDir::Etc::SourceParts "-";\n'
                       f'Dir::State::Lists "{room}/lists";\nDir::Cache "{room}/cache";\nAPT::Sandbox::User "";\n')
        self.environment = dict(os.environ, APT_CONFIG=f'{room}/apt.conf')
        self.run('apt-get', '-q', '-q', 'update')
        self.fetched = set()
        self.providers = self.read_providers()

    def run(self, *command):
        done = subprocess.run(command, env=self.environment, cwd=f'{self.room}/debs', capture_output=True, text=True)
        if done.returncode:
            sys.exit(f'gitoxide_crates: {" ".join(command)}: {done.stderr.strip()}')
        return done.stdout

    def read_providers(self):
        """The package that has a name, for each name of a package of a crate."""
        providers = {}
        for stanza in self.run('apt-cache', 'dumpavail').split('\n\n'):
            fields = dict(re.findall(r'^([\w-]+): (.*)$', stanza, re.M))
            package = fields.get('Package', '')
            if package.startswith('librust-'):
                providers[package] = package
                for name in re.findall(r'librust-[\w.+-]+', fields.get('Provides', '')):
                    providers.setdefault(name, package)
        return providers

    def package(self, crate, version):
        """The package of a crate that is not there yet: of a version, if there is one for it."""
        name, parts = crate.replace('_', '-').lower(), version.lstrip('^=~ ').split('.')
        for length in range(len(parts), -1, -1):
            number = '.'.join(parts[:length])
            package = self.providers.get(f'librust-{name}-{number}-dev' if number else f'librust-{name}-dev')
            if package:
                return None if package in self.fetched else package
        return None

    def fetch(self, crate, version):
        """Fetches a crate, and those that it always needs. Returns whether there was anything to fetch."""
        packages = {self.package(crate, version)} - {None}
        if not packages:
            return False
        while packages:
            self.run('apt-get', '-q', '-q', 'download', *packages)
            self.fetched |= packages
            registry = f'{self.room}/root/usr/share/cargo/registry'
            before = set(os.listdir(registry))
            for file in os.listdir(f'{self.room}/debs'):
                self.run('dpkg-deb', '-x', file, '../root')
                os.remove(f'{self.room}/debs/{file}')
            new = set(os.listdir(registry)) - before
            packages = {self.package(*need) for crate in new for need in needs(f'{registry}/{crate}/Cargo.toml')} - {None}
        return True


def needs(manifest):
    """The crates that a crate needs whatever its features are, with their versions."""
    with open(manifest, 'rb') as file:
        dependencies = tomllib.load(file).get('dependencies', {})
    for name, what in dependencies.items():
        what = what if isinstance(what, dict) else {'version': what}
        if not what.get('optional'):
            yield what.get('package', name), what.get('version', '')


def lock(workspace, config):
    """Makes the lock file of a workspace. Returns what cargo says if it can't."""
    command = ['cargo', '--config', config, 'generate-lockfile', '--offline', '--manifest-path', f'{workspace}/Cargo.toml']
    done = subprocess.run(command, capture_output=True, text=True)
    return done.stderr if done.returncode else ''


def main():
    if len(sys.argv) < 3:
        sys.exit(__doc__)
    directory = os.path.abspath(sys.argv[1])
    packages = Packages(directory)
    registry, config = f'{directory}/registry', f'{directory}/config.toml'
    os.makedirs(f'{directory}/root/usr/share/cargo/registry', exist_ok=True)
    if not os.path.islink(registry):
        os.symlink('root/usr/share/cargo/registry', registry)
    with open(config, 'w') as file:
        file.write(f'[source.crates-io]\nreplace-with = "debian"\n[source.debian]\ndirectory = "{registry}"\n[net]\noffline = true\n')
    for workspace in sys.argv[2:]:
        while said := lock(workspace, config):
            missing, other = MISSING.search(said), NO_VERSION.search(said)
            wanted = (missing[1], '') if missing else (other[1], other[2]) if other else None
            if not wanted or not packages.fetch(*wanted):
                sys.exit(f'gitoxide_crates: cargo can\'t lock {workspace}:\n{said}')
    print(f'gitoxide_crates: {len(os.listdir(registry))} crates')


main()
