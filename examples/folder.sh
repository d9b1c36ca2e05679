# A new folder for temporary files, which is removed at the end. A script of examples/ or bench/ reads this file by '.', and has the folder in `folder`.
# A signal to all that runs ends neither what makes the folder nor what removes it.
# shellcheck shell=sh
folder=
trap 'trap "" HUP INT TERM; rm -rf -- "$folder"' EXIT
trap 'exit 129' HUP
trap 'exit 130' INT
trap 'exit 143' TERM
folder=$(trap '' HUP INT TERM && exec mktemp -d) || exit 1
