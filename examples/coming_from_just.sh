# For bash: `just` with the words that one is used to, by yekuvoi. Put `source PATH/coming_from_just.sh` into ~/.bashrc.
#
# yekuvoi takes one switch, as its first word. So each call is one action of yekuvoi or it is refused: a line on
# standard error that begins with `just: ` says why, the status is 2, and nothing ran. As in just, switches stand before
# all other words, and what stands behind the first recipe belongs to the recipes.
#
# - A dry run wins, which `-n` or a variable JUST_DRY_RUN asks for: a run shows what it would do; `--list`, `--dump`,
#   `--show`, `--summary` and `--fmt --check` run and write nothing, and go on; any other action is refused. `--yes`
#   answers by `y` what a run asks, and a dry run; the other actions ask nothing, and it has no effect on them, as in
#   just.
# - The justfile is sought in the folders above too, upwards from the folder in front of the recipe, if there is one.
#   `-f FILE` and `-d FOLDER` say where it is; together they have to name the same place.
# - Under `dotenv-load`, `dotenv-override`, `dotenv-filename` and `dotenv-path`, of the justfile and of what it imports,
#   the file of variables is found and read as just does, for what runs. `dotenv-required` and `dotenv-command` are
#   refused.
#
# Names here begin with `just_`, or are local to functions that end before yekuvoi starts: it gets the environment as it
# is.
just() (
    set +aef
    shopt -u nocasematch
    declare -A just_set=()
    just_action='' just_dry='' just_yes='' just_check='' just_recipe='' just_path='' just_at=''
    just_given=() just_words=() just_pairs=() just_seen=''
    just_folder='' just_file='' just_word=''

    # Says why the call is refused, and ends it.
    fault() {
        builtin printf 'just: %s\n' "$1" >&2
        exit 2
    }

    usage() {
        command cat <<'TEXT'
usage: just [SWITCH ..] [NAME=VALUE ..] [FOLDER/][RECIPE [WORD ..] ..]

  -n, --dry-run                   show the commands and run none
      --yes                       run without asking for confirmation
  -f, --justfile FILE             the justfile, which is called justfile or .justfile
  -d, --working-directory FOLDER  the folder that has it
      --set NAME VALUE            give the variable NAME another value
one of
  -l, --list                      write the recipes with their comments
  -s, --show NAME                 write a recipe
      --summary                   write the names of the recipes, those of modules too
      --evaluate [NAME]           write the variables, or the text of one
  -c, --command WORD ..           run the command with what the justfile exports
      --plan [RECIPE ..]          write what would run, one a line
      --dump                      write the justfile as it is formatted
      --fmt [--check]             format the justfile, or only show what that would change
  -h, --help, -V, --version       write this, or the version
TEXT
    }

    # Keeps the action that a switch asks for; refuses a second one.
    act() {
        [[ ! $just_action ]] || fault "$just_action and $1 are two actions, and a call takes one"
        just_action=$1
    }

    # Keeps the value $4 of the switch $2 in the variable $1; refuses a second one, and none. $3 says what it is.
    take() {
        [[ ${4:-} && ($4 == - || $4 != -*) ]] || fault "$2 needs $3 behind it"
        [[ ! ${!1} ]] || fault "$2 stands there twice"
        builtin printf -v "$1" '%s' "$4"
    }

    # Writes the path of the folder from the root, without `.` and `..`, and with a final `/`.
    path_of() {
        builtin cd -P . && CDPATH='' builtin cd -L -- "$1" > /dev/null 2>&1 && builtin printf '%s/' "${PWD%/}"
    }

    # Writes the names in the folder that a justfile may have, one a line.
    justfiles_of() (
        shopt -s nullglob nocaseglob
        shopt -u failglob
        GLOBIGNORE=''
        for found in "$1"[j]ustfile "$1".[j]ustfile; do builtin printf '%s\n' "${found##*/}"; done
    )

    # Finds the justfile of the folder $1, or with $2 of the folders above it too. What names the folder for yekuvoi has
    # no `=`, which would make an override of it.
    locate() {
        local names up=''
        just_folder=$(path_of "$1") || fault "no folder $1"
        names=$(justfiles_of "$just_folder")
        while [[ ! $names && $2 && $just_folder != / ]]; do
            just_folder=${just_folder%/}
            just_folder=${just_folder%/*}/
            up+=../
            names=$(justfiles_of "$just_folder")
        done
        [[ $names ]] || fault "no justfile in $1${2:+ and the folders above it}"
        [[ $names != *$'\n'* ]] || fault "$just_folder has more than one justfile: ${names//$'\n'/ and }"
        just_file=$just_folder$names
        [[ -f $just_file && ! -L $just_file ]] || fault "$just_file is a link or no file, and yekuvoi reads neither"
        just_word=$just_folder
        [[ $1 != ./ ]] || just_word=./$up
        [[ $just_word != *=* ]] || fault "yekuvoi takes no folder with = in its path: $just_word"
    }

    # Finds the justfile that `-f` and `-d` name.
    locate_named() {
        local name=${just_path##*/} folder
        if [[ $just_path ]]; then
            [[ -e $just_path || -L $just_path ]] || fault "no file $just_path"
            [[ ${name,,} == justfile || ${name,,} == .justfile ]] ||
                fault "yekuvoi reads what is called justfile or .justfile alone, not $just_path"
            folder=${just_path%"$name"}
            [[ ! $just_at || $just_at/ -ef ${folder:-./} ]] ||
                fault "yekuvoi runs in the folder of the justfile, not in $just_at"
        else
            folder=$just_at/
        fi
        locate "${folder:-./}" ''
    }

    # Reads a justfile. With `show` it writes the recipe or alias $2 as it stands there. Else it writes a line for each
    # item that counts on Linux, of fields behind tabs: `recipe NAME` for each that is public, `mod NAME PATH`, `import
    # import PATH`, and `set NAME VALUE` where the name begins with `dotenv`. Where a path or value is neither a string
    # that it reads nor a truth, `unread` stands in the place of the first word, and the source in that of the last.
    items() {
        LC_ALL=C command awk -v wanted="$1" -v shown="${2:-}" '
            function keep(text, level) {
                raw = raw text
                if (level <= 1) plain = plain text
            }
            # These three take the beginning of a line off, and answer the rest: of a string, of code, of a body.
            function in_string(line, mark,   end, n) {
                end = mark
                sub(/^f/, "", end)
                while (line != "") {
                    if (index(line, end) == 1) {
                        depth--
                        raw = raw end
                        return substr(line, length(end) + 1)
                    }
                    n = 1
                    if (mark != end && substr(line, 1, 4) == "{{{{") n = 4
                    else if (mark != end && substr(line, 1, 2) == "{{") {
                        open[++depth] = "{{"
                        return substr(line, 3)
                    }
                    else if (end ~ /^"/ && line ~ /^\\/) n = 2
                    else if (match(line, /^[^\\{"\047`]+/)) n = RLENGTH
                    raw = raw substr(line, 1, n)
                    line = substr(line, n + 1)
                }
                return ""
            }
            function in_code(line,   token, level) {
                token = match(line, /^[A-Za-z_][A-Za-z0-9_-]*/) ? substr(line, 1, RLENGTH) : substr(line, 1, 1)
                if (token == "#") return ""
                if (line == "\\") {
                    continues = 1
                    return ""
                }
                if (depth && open[depth] == "{{" && substr(line, 1, 2) == "}}") {
                    depth--
                    return substr(line, 3)
                }
                if (token ~ /^["\047`]$/ && substr(line, 1, 3) == token token token) token = token token token
                level = depth
                if (token ~ /^["\047`]/) open[++depth] = (last == "f" ? "f" : "") token
                else if (token ~ /^[[({]$/) open[++depth] = token
                else if (token ~ /^[])}]$/ && depth) level = --depth
                keep(token, level)
                last = token
                return substr(line, length(token) + 1)
            }
            function in_body(line,   n) {
                n = index(line, "{{")
                if (!n) return ""
                if (substr(line, n, 4) == "{{{{") return substr(line, n + 4)
                open[++depth] = "{{"
                return substr(line, n + 2)
            }
            # The text of a string, and the empty one of nothing. It is the source itself, and is_unread, where that is
            # another expression, has an escape that is none of \\, \" and \t, or goes over lines.
            function text_of(source,   n, mark, inner, escaped, text) {
                is_unread = 0
                if (source == "") return ""
                is_unread = 1
                n = source ~ /^("""|\047\047\047)/ ? 3 : 1
                mark = substr(source, 1, n)
                inner = substr(source, n + 1, length(source) - 2 * n)
                if (mark !~ /^["\047]/ || length(source) < 2 * n || substr(source, length(source) - n + 1) != mark ||
                    inner ~ /\n/) return source
                if (n == 3) sub(/^[ \t]+/, "", inner)
                while (mark ~ /"/ && match(inner, /\\/)) {
                    escaped = substr(inner, RSTART + 1, 1)
                    if (escaped !~ /[\\"t]/ || index(substr(inner, 1, RSTART), mark)) return source
                    text = text substr(inner, 1, RSTART - 1) (escaped == "t" ? "\t" : escaped)
                    inner = substr(inner, RSTART + 2)
                }
                if (index(inner, mark)) return source
                is_unread = 0
                return text inner
            }
            function tell(kind, name, source,   text) {
                text = text_of(source)
                gsub(/\n/, " ", text)
                print (is_unread ? "unread" : kind) "\t" name "\t" text
            }
            # What the source of the item is from its first match of the pattern on.
            function from(pattern) {
                return match(raw, pattern) ? substr(raw, RSTART) : ""
            }
            function named(pattern,   rest) {
                rest = plain
                sub(pattern, "", rest)
                match(rest, "^" name_form)
                return substr(rest, 1, RLENGTH)
            }
            # Tells the item that ends here, and forgets it.
            function end_item(   is_on, value) {
                if (kind == "") return
                is_on = attributes !~ /[[ ,](android|dragonfly|freebsd|linux|macos|netbsd|openbsd|unix|windows)[] ,]/ ||
                    attributes ~ /[[ ,](linux|unix)[] ,]/
                if (wanted == "show") {
                    if (kind == "recipe" || kind == "alias") {
                        value = kind == "recipe" && comment && comment == first - 1 ? lines[comment] "\n" : ""
                        for (; first <= final; first++) value = value lines[first] "\n"
                        texts[kind, name] = texts[kind, name] value
                        targets[name] = target
                    }
                }
                else if (kind == "import") tell(kind, kind, from("x?[\"\047].*"))
                else if (is_on && kind == "mod") tell(kind, name, from("x?[\"\047].*"))
                else if (is_on && kind == "recipe" && name !~ /^_/ && attributes !~ /[[ ,]private[] ,]/)
                    print "recipe\t" name
                else if (is_on && kind == "set" && name ~ /^dotenv/) {
                    value = from(":=.*")
                    sub(/^:=[ \t]*/, "", value)
                    if (value == "") value = "true"
                    if (value ~ /^(true|false)$/) print "set\t" name "\t" value
                    else tell(kind, name, value)
                }
                kind = attributes = ""
                first = 0
            }
            # Finds out what the item is that the line just ended.
            function classify() {
                gsub(/[ \t]+/, " ", plain)
                sub(/^ /, "", plain)
                sub(/ $/, "", plain)
                sub(/[ \t\n]+$/, "", raw)
                kind = "other"
                if (plain ~ /^\[/) {
                    attributes = attributes " " plain
                    kind = ""
                }
                else if (plain ~ "^((export|eager) )*" name_form " ?:=" || plain ~ "^" name_form " ?\\(" ||
                    plain ~ "^unexport " name_form "$") kind = "other"
                else if (plain ~ "^alias " name_form " ?:=") {
                    kind = "alias"
                    name = named("^alias ")
                    target = plain
                    sub(/^[^=]*= ?/, "", target)
                }
                else if (plain ~ "^import ?\\?" || plain ~ "^import ?x?[\"\047]") kind = "import"
                else if (plain ~ "^mod ?\\?" || plain ~ "^mod " name_form "( ?x?[\"\047]+)?$") {
                    kind = "mod"
                    name = named("^mod ?[?]? ?")
                }
                else if (plain ~ "^set " name_form "( ?:=|$)") {
                    kind = "set"
                    name = named("^set ")
                }
                else if (plain ~ "^@? ?" name_form) {
                    kind = "recipe"
                    name = named("^@? ?")
                }
                is_body = 0
            }
            BEGIN { name_form = "[A-Za-z_][A-Za-z0-9_-]*" }
            {
                lines[NR] = line = $0
                sub(/\r$/, "", line)
                if (NR == 1) sub(/^\357\273\277/, "", line)
                if (!depth && !continues) {
                    if (line ~ /^[ \t]*$/) next
                    if (line ~ /^#/) {
                        last_comment = NR
                        next
                    }
                    if (line ~ /^[ \t]/) is_body = 1
                    else {
                        is_body = 0
                        end_item()
                        if (!first) {
                            first = NR
                            comment = last_comment
                        }
                        raw = plain = ""
                    }
                }
                final = NR
                continues = 0
                last = ""
                while (line != "") {
                    if (depth && open[depth] ~ /["\047`]/) line = in_string(line, open[depth])
                    else if (is_body && !depth) line = in_body(line)
                    else line = in_code(line)
                }
                if (depth && open[depth] ~ /["\047`]/) raw = raw "\n"
                else keep(" ", depth)
                if (!depth && !continues && !is_body) classify()
            }
            END {
                end_item()
                if (wanted != "show") exit
                alias = texts["alias", shown]
                if (alias != "") shown = targets[shown]
                if (!(("recipe", shown) in texts)) exit 1
                printf "%s%s", alias, texts["recipe", shown]
            }'
    }

    # Calls the function $1 with the path of the file that $3 names beside the file $2, if it is there.
    beside() {
        local path=$3
        [[ $path == /* ]] || path=${2%/*}/$path
        [[ ! -f $path ]] || "$1" "$(path_of "${path%/*}/")${path##*/}"
    }

    # Reads into just_set what the file, and what it imports, sets of the files of variables.
    read_settings() {
        local kind name text=''
        [[ $just_seen != *"//$1//"* ]] || return 0
        just_seen+=//$1//
        IFS= builtin read -r -d '' text < "$1"
        [[ $text == *dotenv* || $text == *import* ]] || return 0
        while IFS=$'\t' builtin read -r kind name text; do
            case $kind:$name in
                set:*) just_set[$name]=$text ;;
                import:*) beside read_settings "$1" "$text" ;;
                unread:import | unread:dotenv*)
                    fault "$1: ${name/dotenv/set dotenv} $text: that is no plain string, and can not be read here" ;;
            esac
        done < <(items all < "$1")
    }

    # Reads a file of variables, and writes them as quoted words NAME=VALUE; those that are set already under $1 alone.
    # Names, quotes, escapes, comments and what `$` stands for are those of just; text without quotes may have blanks.
    variables() {
        LC_ALL=C command awk -v overrides="$1" '
            # The text of the value; is_open where a quote is open at its end, is_bad where it is none.
            function value_of(rest,   mark, quote, text, name, n) {
                is_open = 0
                while (rest != "" && !is_bad) {
                    mark = substr(rest, 1, 1)
                    rest = substr(rest, 2)
                    if (quote == "\047" && mark == quote) quote = ""
                    else if (quote == "\047") text = text mark
                    else if (mark == "\\") {
                        mark = substr(rest, 1, 1)
                        rest = substr(rest, 2)
                        is_bad = mark !~ /^[\\"\047$ n]$/
                        text = text (mark == "n" ? "\n" : mark)
                    }
                    else if (mark == "$") {
                        n = index(rest, "}")
                        is_bad = rest ~ /^[{]/ && !n
                        if (rest !~ /^[{]/) {
                            match(rest, /^[A-Za-z0-9]*/)
                            n = RLENGTH
                        }
                        name = substr(rest, 1, n)
                        gsub(/[{}]/, "", name)
                        rest = substr(rest, n + 1)
                        text = text (name in ENVIRON ? ENVIRON[name] : stored[name])
                    }
                    else if (mark == quote) quote = ""
                    else if (quote == "" && mark ~ /["\047]/) quote = mark
                    else if (quote == "" && (mark rest) ~ /^[ \t]+(#|$)/) break
                    else text = text mark
                }
                is_open = quote != ""
                return text
            }
            {
                sub(/\r$/, "")
                if (NR == 1) sub(/^\357\273\277/, "")
                if (!is_open) {
                    rest = name = ""
                    first = NR
                    if ($0 ~ /^[ \t]*(#|$)/) next
                    sub(/^[ \t]*(export[ \t]+)?/, "")
                    is_bad = !match($0, /^[A-Za-z_][A-Za-z0-9_.]*[ \t]*=/)
                    if (is_bad) exit
                    name = substr($0, 1, RLENGTH - 1)
                    sub(/[ \t]+$/, "", name)
                    rest = substr($0, RLENGTH + 1)
                    sub(/^[ \t]+/, "", rest)
                    if (rest ~ /^#/) rest = ""
                }
                else rest = rest "\n" $0
                text = value_of(rest)
                if (is_bad) exit
                if (is_open) next
                stored[name] = text
                if (name in ENVIRON && !overrides) next
                printf "\047%s=", name
                for (; n = index(text, "\047"); text = substr(text, n + 1))
                    printf "%s\047\\\047\047", substr(text, 1, n - 1)
                printf "%s\047\n", text
            }
            END {
                if (!is_bad && !is_open) exit
                print first
                exit 1
            }'
    }

    # Finds the file of variables that the settings name, and reads it into just_pairs. A path counts from the folder of
    # the justfile, a name in those above it too.
    read_variables() {
        local at=$just_folder name=${just_set[dotenv-filename]:-} path=${just_set[dotenv-path]:-} overrides='' words
        [[ ${just_set[dotenv-required]:-} != true ]] || fault 'yekuvoi has no set dotenv-required'
        [[ ! ${just_set[dotenv-command]:-} ]] || fault 'yekuvoi has no set dotenv-command'
        [[ ${just_set[dotenv-override]:-} != true ]] || overrides=true
        [[ $overrides || $name || $path || ${just_set[dotenv-load]:-} == true ]] || return 0
        [[ ! $path || $path == /* ]] || path=$just_folder$path
        if [[ ! -f $path ]]; then
            name=${name:-.env}
            [[ $name != /* ]] || at=''
            while [[ ! -f $at$name && $at == */*/ ]]; do
                at=${at%/}
                at=${at%/*}/
            done
            path=$at$name
        fi
        [[ -f $path ]] || return 0
        words=$(variables "$overrides" < "$path") || fault "$path, line ${words##*$'\n'}, can not be read"
        builtin eval "just_pairs=($words)"
    }

    # Adds the recipes and modules of the file, and of what it imports, to `recipes` and `modules` of the caller.
    gather() {
        local kind name text
        while IFS=$'\t' builtin read -r kind name text; do
            case $kind:$name in
                recipe:*) recipes+=("$name") ;;
                import:*) beside gather "$1" "$text" ;;
                mod:*) modules[$name]=$(module_file "${1%/*}/" "$name" "$text") ;;
                unread:dotenv*) ;;
                unread:*) fault "$1: $name $text: that is no plain string, and can not be read here" ;;
            esac
        done < <(items all < "$1")
    }

    # Writes the path of the file of the module $2, which a file in the folder $1 names with the path $3 or without any.
    module_file() {
        local path=$1${3:-$2} name
        if [[ $3 && -f $path ]]; then
            builtin printf '%s' "$path"
        elif [[ ! $3 && -f $path.just ]]; then
            builtin printf '%s' "$path.just"
        elif [[ -f $path/mod.just ]]; then
            builtin printf '%s' "$path/mod.just"
        else
            name=$(justfiles_of "$path/")
            builtin printf '%s' "${name:+$path/$name}"
        fi
    }

    # Writes the names of the recipes of the file, each behind the path $2, then those of its modules, one a line.
    summarize() {
        local recipes=() name
        local -A modules=()
        gather "$1"
        while IFS= builtin read -r name; do
            [[ ! $name ]] || builtin printf '%s\n' "$2$name"
        done < <(builtin printf '%s\n' ${recipes[@]+"${recipes[@]}"} | LC_ALL=C command sort -u)
        while IFS= builtin read -r name; do
            [[ ! $name || ! ${modules[$name]} ]] || summarize "${modules[$name]}" "$2$name::"
        done < <(builtin printf '%s\n' ${modules[@]+"${!modules[@]}"} | LC_ALL=C command sort)
    }

    # Reads the switches, and leaves the words behind them in just_words.
    read_switches() {
        while [[ ${1:-} == -?* ]]; do
            case $1 in
                --) shift; break ;;
                --justfile=* | --show=* | --working-directory=*) set -- "${1%%=*}" "${1#*=}" "${@:2}"; continue ;;
                -[dfs]=?*) set -- "${1:0:2}" "${1:3}" "${@:2}"; continue ;;
                -[dfs]?*) set -- "${1:0:2}" "${1:2}" "${@:2}"; continue ;;
                -[!-]?*) set -- "${1:0:2}" "-${1:2}" "${@:2}"; continue ;;
                -n | --dry-run) just_dry=$1 ;;
                --yes) just_yes=$1 ;;
                --check) just_check=$1 ;;
                -h | --help) usage; exit 0 ;;
                -V | --version) builtin printf 'yekuvoi, which ports just 1.58.0\n'; exit 0 ;;
                -l | --list) act --list ;;
                --dump | --evaluate | --fmt | --plan | --summary) act "$1" ;;
                -c | --command) act --command; shift; break ;;
                -s | --show) act --show; take just_recipe "$1" 'the name of a recipe' "${@:2:1}"; shift ;;
                -f | --justfile) take just_path "$1" 'a justfile' "${@:2:1}"; shift ;;
                -d | --working-directory) take just_at "$1" 'a folder' "${@:2:1}"; shift ;;
                --set)
                    [[ $# -gt 2 && $2 && $2 != *=* && $2 != -* && $3 != -?* ]] ||
                        fault '--set needs a name and a value behind it; NAME=VALUE gives one that begins with -'
                    just_given+=("$2=$3")
                    shift 2
                    ;;
                *) fault "yekuvoi has no switch $1" ;;
            esac
            shift
        done
        just_words=("$@")
    }

    # Refuses switches that do not go together.
    check_switches() {
        case $just_action$just_check in
            '' | --list | --dump | --show | --summary | --fmt--check) ;;
            *--check) [[ $just_action == --fmt ]] || fault '--check goes with --fmt alone' ;;
            *) [[ ! $just_dry ]] || fault "$just_action may run or write something, which $just_dry does not allow" ;;
        esac
    }

    # Reads what stands in front of the recipes: overrides into just_given, and the folder into just_word. Refuses words
    # that the action does not take, and switches behind words.
    read_words() {
        just_word=''
        if [[ $just_action == --command ]]; then
            [[ ${1:-} && $1 != -* ]] || fault '--command needs a program behind it'
            return
        fi
        while [[ ${1:-} == *=* ]]; do
            just_given+=("$1")
            shift
        done
        case ${1:-} in
            . | ..) just_word=$1/; shift ;;
            */*) just_word=${1%/*}/; set -- "${1##*/}" "${@:2}"; [[ $1 ]] || shift ;;
        esac
        [[ ! $just_word || ! $just_path$just_at ]] || fault "the folder $just_word does not go with -f and -d"
        [[ ${1:-} != -* ]] || fault "$1 is no recipe, and a switch stands in front of all words"
        case $just_action in
            '' | --plan) ;;
            --evaluate) [[ $# -lt 2 ]] || fault "$just_action takes one word, and $2 is another" ;;
            *) [[ $# -lt 1 ]] || fault "$just_action takes no word, and $1 is one" ;;
        esac
        just_words=("$@")
    }

    # Writes a recipe as `--dump` does.
    show() {
        local text
        text=$(yekuvoi --dump "$@") || exit
        items show "$just_recipe" <<< "$text" || fault "$just_file itself has no recipe $just_recipe"
    }

    # Writes what `--fmt` would change, and answers whether it would change nothing.
    check_format() {
        local text
        text=$(yekuvoi --dump "$@" && builtin printf x) || exit
        builtin printf '%s' "${text%x}" | command diff -u -- "$just_file" - && return
        builtin printf 'just: %s is not formatted\n' "$just_file" >&2
        return 1
    }

    # Writes the names of all public recipes on one line.
    summary() {
        local names
        yekuvoi --list "$@" > /dev/null || exit
        names=$(summarize "$just_file" '') || exit
        builtin printf '%s\n' "${names//$'\n'/ }"
    }

    case ${JUST_DRY_RUN:-} in
        '' | 0 | f | n | no | off | false) ;;
        *) just_dry=JUST_DRY_RUN ;;
    esac
    read_switches "$@"
    check_switches
    read_words ${just_words[@]+"${just_words[@]}"}
    if [[ $just_path$just_at ]]; then locate_named; else locate "${just_word:-./}" upwards; fi
    set -- ${just_given[@]+"${just_given[@]}"} "$just_word"
    case $just_action$just_check in
        --fmt--check) check_format "$@"; exit ;;
        --show) show "$@"; exit ;;
        --summary) summary "$@"; exit ;;
        '' | --evaluate | --plan | --command) read_settings "$just_file"; read_variables ;;
    esac
    just_action=${just_action:-${just_dry:+--dry-run}}
    just_action=${just_action:-$just_yes}
    set -- yekuvoi ${just_action:+"$just_action"} "$@" ${just_words[@]+"${just_words[@]}"}
    if [[ ${#just_pairs[@]} -gt 0 ]]; then
        set -- command env "${just_pairs[@]}" "$(builtin type -P yekuvoi || builtin printf yekuvoi)" "${@:2}"
    fi
    if [[ $just_action == --dry-run && $just_yes ]]; then
        "$@" < <(command yes 2> /dev/null)
    else
        "$@"
    fi
)
