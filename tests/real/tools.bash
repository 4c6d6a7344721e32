# Sourced by the scripts beside it that need the real F2FS tools.
PATH=$PATH:/usr/sbin:/sbin

# need TOOL..: ends the script where one of these tools of F2FS isn't installed.
need() {
    local tool
    for tool; do
        if ! command -v "$tool.f2fs" >/dev/null; then
            echo "skipped: $tool.f2fs is not installed"
            exit 0
        fi
    done
}
