# For ./explain, and for what `make install` installs as zorthewin-explain: with --picture or --timeline the script
# explain_drawn.py of the folder $tools does what is asked, and --help says so. Both call `run` for the program.

for argument; do
    case $argument in
    --) break ;;
    --help | -h)
        run "$@" || exit
        echo || exit 5
        cat "$tools/drawing.txt" || exit 5
        exit 0
        ;;
    --picture | --picture=* | --timeline | --timeline=*)
        if ! command -v python3 >/dev/null; then
            echo "explain: --picture and --timeline need python3, 3.8 or later" >&2
            exit 70
        fi
        exec python3 "$tools/explain_drawn.py" "$@"
        ;;
    esac
done
