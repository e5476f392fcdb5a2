#!/bin/bash
# Grades submissions: programs/course/grade.sh [OPTION..] EXERCISE SUBMISSION.. >results.csv
#
#   EXERCISE         a file of TOML, as programs/course/grading/children.toml; docs/manual/grading.md says what stands in it
#   SUBMISSION       a folder for each student, whose name may have any bytes
#   --work FOLDER    where each submission's results are kept: its console, notes, trace and picture (./grade-work/NAME, if
#                    the exercise is NAME.toml)
#   --resume         a submission that has a result there is not graded anew, unless it, the exercise or the program changed
#   --jobs N         so many at a time (as many as there are processors)
#   --sshlogin HOSTS hosts to share the work, as GNU parallel takes them; the folders have the same paths there
#   --slurm          by Slurm, as an array of jobs: grade.slurm
#
# One line of CSV a submission goes to standard output, in the order of the names' bytes, and to FOLDER/results.csv;
# FOLDER/results.xml is the same for what reads JUnit's XML. Only plain files of the names that the exercise has, no longer than
# 1,048,576 bytes, are taken, and copied before they are used; no link is followed, and nothing of a submission is run on the host.
# How long a run may take is said in events, so the results are the same on any host, in any order and on any number of processors.
# A submission that the host can't read, or whose result it can't write, has no mark: it is `not graded`, and --resume takes it up.
# One grader at a time works in a FOLDER: its file `lock` says which. All that it starts on this host ends with it.
#
# XV_GRADE and XV_PICTURE are the programs, and without them those that are built here or came with a release.
# Status: 0 each submission has a result; 1 the words are refused; 2 the exercise is refused, another grader works in the FOLDER,
# or a submission is not graded; 5 the results can't be written.
set -u
export LC_ALL=C
here=$(cd "$(dirname "$0")" && pwd -P) || exit 2
most=1048576

# Where a program stands that was built here, or came with a release.
path_of() {
    if [ -d "$here/../../libexec" ]; then
        printf '%s' "$here/../../libexec/$1"
    else
        printf '%s' "$here/../../bin/$1"
    fi
}

export XV_GRADE=${XV_GRADE-$(path_of xv_grade)}
export XV_PICTURE=${XV_PICTURE-$(path_of xv_picture)}

give_up() {
    printf 'grade.sh: %s\n' "$2" >&2
    exit "$1"
}

work='' resume=0 jobs='' hosts='' slurm=0
while [ $# -gt 0 ]; do
    case $1 in --work | --jobs | --sshlogin) [ $# -ge 2 ] || give_up 1 "$1 takes a word behind it; --help tells which" ;; esac
    case $1 in
    --work) work=$2 && shift ;;
    --jobs)
        jobs=$2 && shift
        case $jobs in '' | *[!0-9]*) give_up 1 '--jobs takes a number from 1 on' ;; *[1-9]*) ;; *) give_up 1 '--jobs takes a number from 1 on' ;; esac
        ;;
    --sshlogin) hosts=$2 && shift ;;
    --resume) resume=1 ;;
    --slurm) slurm=1 ;;
    --help | -h)
        sed -n '2,/^set -u/{/^#/s/^# \{0,1\}//p}' "$0"
        exit 0
        ;;
    --)
        shift
        break
        ;;
    -*) give_up 1 "no option $1; --help tells them" ;;
    *) break ;;
    esac
    shift
done
[ $# -ge 2 ] || give_up 1 'usage: grade.sh [OPTION..] EXERCISE SUBMISSION..; --help tells the options'
"$XV_GRADE" --help >/dev/null 2>&1 || give_up 2 "$XV_GRADE is not built; XV_GRADE tells where it is"

exercise=$1
shift
name=${exercise##*/}
[ -n "$work" ] || work=grade-work/${name%.toml}
case $exercise in /*) ;; *) exercise=$PWD/$exercise ;; esac
wanted=$("$XV_GRADE" "$exercise") || exit 2
mkdir -p -- "$work/jobs" || exit 2
work=$(cd -- "$work" && pwd -P) || exit 2
export EXERCISE=$exercise

. "$here/lock.sh"
take_lock "$work/lock" grade.sh "$exercise"

# What the results depend on beside a submission: the program, the exercise, and the files beside it that it names.
inputs=$("$XV_GRADE" --inputs "$exercise") || exit 2
common=$(sha256sum <"$XV_GRADE") || exit 2
# XV_GRADE may be a script that only starts the program of a clone or of a release.
for program in "$here/../../crates/xv_tools/out/xv_tools" "$here/../../libexec/xv_tools"; do
    [ ! -r "$program" ] || common+=$(sha256sum <"$program") || exit 2
done
while IFS= read -r file; do
    [ -r "$file" ] || give_up 2 "$file, which the exercise names, cannot be read"
    common+=$(sha256sum <"$file") || exit 2
done <<<"$inputs"
text=$(sha256sum <"$exercise") || exit 2
text=${text%% *}

# What stands at a path, as `kind`: `nothing` if nothing does. Where the host can't tell, `trouble` is why.
look_at() {
    local told
    if told=$(stat -c %F -- "$1" 2>&1); then
        kind=$told
    elif [[ $told == *': No such file or directory' ]]; then
        kind=nothing
    else
        trouble=${told##*: }
        return 1
    fi
}

# Copies a plain file of a submission. Between the look at it and the copy it may become another thing.
take_file() {
    local told
    if ! told=$(cp -P -- "$1" "$2" 2>&1); then
        trouble=${told##*: }
        rm -rf "$2" # what is there of it takes room that the results need
        return 1
    fi
    if [ ! -f "$2" ] || [ -L "$2" ]; then
        why='not a plain file'
    elif [ "$(stat -c %s "$2")" -gt "$most" ]; then
        why='too long'
    fi
    [ -z "$why" ] || rm -rf "$2"
}

# One file of a submission: it is copied, or `why` says why it is not taken. The status is 1 in case of `trouble` with the host.
stage_file() {
    local path=$1 job=$2 file=$3 kind
    look_at "$path" || return 1
    case $kind in
    directory) ;;
    'symbolic link') why='the submission is a link, which is not followed' && return 0 ;;
    *) why='the submission is not a folder' && return 0 ;;
    esac
    look_at "$path/$file" || return 1
    case $kind in
    nothing) ;;
    'symbolic link') why='a link, which is not followed' ;;
    'regular file' | 'regular empty file')
        if [ "$(stat -c %s -- "$path/$file")" -gt "$most" ]; then
            why='too long'
        else
            take_file "$path/$file" "$job/files/$file"
        fi
        ;;
    *) why='not a plain file' ;;
    esac
}

# The job of a submission: a folder with its name, its files, and why a file is not taken. An old result stays only if all that it
# depends on is the same. The status is 1 in case of `trouble` with the host.
stage() {
    local path=$1 job=$2 file why lines=()
    trouble="its folder in $work cannot be written"
    rm -rf "$job/files" "$job/refused" "$job/failed" "$job/stamp" 2>/dev/null
    { mkdir -p "$job/files" && printf '%s' "$3" >"$job/name" && printf '%s\n' "$EXERCISE" >"$job/exercise"; } 2>/dev/null || return 1
    while IFS= read -r file; do
        why=''
        stage_file "$path" "$job" "$file" || { trouble="$file: $trouble" && return 1; }
        [ -z "$why" ] || lines+=("$file: $why")
    done <<<"$wanted"
    trouble="its folder in $work cannot be written"
    { [ ${#lines[@]} = 0 ] || printf '%s\n' "${lines[@]}"; } | sort -u 2>/dev/null >"$job/refused" || return 1
    chmod -R u+rw "$job/files" || return 1
    (cd "$job" && { printf '%s\n' "$common" && sha256sum name refused && find files -type f -exec sha256sum {} + | sort; }) |
        sha256sum 2>/dev/null >"$job/stamp" || return 1
    trouble=''
}

declare -A path_of job_of trouble_of
for path in "$@"; do
    [ -e "$path" ] || [ -L "$path" ] || give_up 1 "there is no submission $(printf '%q' "$path")"
    case $path in /*) ;; *) path=./$path ;; esac
    while [ "${path%/}" != "$path" ] && [ "$path" != / ]; do path=${path%/}; done
    name=${path##*/}
    [ -z "${path_of[x$name]+is}" ] || give_up 2 "two submissions have one name: $(printf '%q' "$name")"
    path_of[x$name]=$path
done

# Folders of jobs are named by the sum of the exercise's text and the name: so no byte of a name is ever part of a command, and
# no result of one exercise is taken for another's.
while IFS= read -r -d '' key && IFS= read -r -d '' sum; do
    job_of[$key]=$work/jobs/${sum:0:32}
done < <(
    for key in "${!path_of[@]}"; do
        printf '%s\0' "$key"
        printf '%s\n%s' "$text" "${key#x}" | sha256sum | tr -d ' \n-'
        printf '\0'
    done
)

names() {
    printf '%s\0' "${!path_of[@]}" | sort -z
}

# Whether a job has a result, and it is of what the stamp says.
has_result() {
    [ -f "$1/out/result.csv" ] && cmp -s "$1/stamp" "$1/out/stamp"
}

: >"$work/todo" || exit 5
while IFS= read -r -d '' key; do
    job=${job_of[$key]}
    if ! stage "${path_of[$key]}" "$job" "${key#x}"; then
        trouble_of[$key]=$trouble
        continue
    fi
    [ "$resume" = 1 ] && has_result "$job" && continue
    rm -rf "$job/out"
    printf '%s\n' "$job" >>"$work/todo" || exit 5
done < <(names)

count=$(wc -l <"$work/todo")
if [ "$count" = 0 ]; then
    :
elif [ "$slurm" = 1 ]; then
    tasks=$((count < 100 ? count : 100))
    mkdir -p "$work/slurm"
    sbatch --wait --export=ALL --array="0-$((tasks - 1))" --output="$work/slurm/%a.log" "$here/grade.slurm" "$work" "$tasks" "$here" >&2 ||
        printf 'grade.sh: a job of the array failed\n' >&2
elif command -v parallel >/dev/null; then
    set -- --will-cite --env XV_GRADE --env XV_PICTURE --env EXERCISE --env LC_ALL --env LOCK --env GRADER
    [ -z "$jobs" ] || set -- "$@" --jobs "$jobs"
    [ -z "$hosts" ] || set -- "$@" --sshlogin "$hosts"
    bound parallel "$@" --quote "$here/grade_one.sh" <"$work/todo" >&2
elif [ -n "$hosts" ]; then
    give_up 2 '--sshlogin needs GNU parallel (Debian: apt-get install parallel)'
else
    bound xargs -d '\n' -P "${jobs:-$(nproc)}" -n 1 "$here/grade_one.sh" <"$work/todo" >&2
fi

# A name as text of UTF-8: in one that isn't, what isn't ASCII is shown as \xff.
shown() {
    local bytes=$1 byte place
    if [ "$(printf '%s.' "$bytes" | iconv -f UTF-8 -t UTF-8 2>/dev/null)" = "$bytes." ]; then
        printf '%s' "$bytes"
        return
    fi
    for ((place = 0; place < ${#bytes}; place++)); do
        byte=${bytes:place:1}
        case $byte in
        [$'\001'-$'\177']) printf '%s' "$byte" ;;
        *) printf '%s' "$byte" | od -An -tx1 | sed 's/ */\\x/' | tr -d '\n' ;;
        esac
    done
}

# A field of CSV.
field() {
    case $1 in
    *[,\"$'\n\r']*) printf '"%s"' "${1//\"/\"\"}" ;;
    *) printf '%s' "$1" ;;
    esac
}

# The line of a submission without a result, and why it has none.
line_without_result() {
    local why=${trouble_of[$1]-}
    [ -n "$why" ] || { IFS= read -r why <"${job_of[$1]}/failed"; } 2>/dev/null
    printf '%s,,,not graded,%s\n' "$(field "$(shown "${1#x}")")" "$(field "$(shown "${why:-it has no result}")")"
}

missing=0
{
    echo submission,points,of,status,reason
    while IFS= read -r -d '' key; do
        if [ -z "${trouble_of[$key]-}" ] && has_result "${job_of[$key]}"; then
            cat "${job_of[$key]}/out/result.csv" || exit 5
        else
            missing=$((missing + 1))
            line_without_result "$key"
        fi
    done < <(names)
} >"$work/results.csv.new" || exit 5
{
    echo '<?xml version="1.0" encoding="UTF-8"?>'
    echo '<testsuites>'
    while IFS= read -r -d '' key; do
        [ -n "${trouble_of[$key]-}" ] || ! has_result "${job_of[$key]}" || cat "${job_of[$key]}/out/result.xml" || exit 5
    done < <(names)
    echo '</testsuites>'
} >"$work/results.xml.new" || exit 5
mv "$work/results.csv.new" "$work/results.csv" && mv "$work/results.xml.new" "$work/results.xml" || exit 5
cat "$work/results.csv" || exit 5
[ "$missing" = 0 ] || give_up 2 "$missing submissions are not graded; the files $work/jobs/*/failed say why. --resume tries them again"
