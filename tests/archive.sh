# For the scripts that need the archive: builds target/libhaldurap.a and target/libhaldurap.so, unless
# HALDURAP_ARCHIVE_BUILT=1 says that tests/run.sh did. Sourced at the top of the repository.
archive=target/libhaldurap.a
shared=target/libhaldurap.so
mkdir -p target
if [ "${HALDURAP_ARCHIVE_BUILT:-}" != 1 ]; then
    tools/archive.sh > target/staticlib.log 2>&1 || { cat target/staticlib.log; echo "the archive is not built"; exit 1; }
    rm -f "$shared"
    gcc -shared -o "$shared" -Wl,--whole-archive "$archive" -Wl,--no-whole-archive || { echo "$shared is not built"; exit 1; }
fi
for built in "$archive" "$shared"; do
    [ -f "$built" ] || { echo "$built is not there"; exit 1; }
done
