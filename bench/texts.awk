# Writes a long text for bench/scope.sh or bench/eval.sh.
# Usage: awk -v part=scope|eval -v shape=SHAPE -v count=COUNT -f bench/texts.awk
#
# For `scope`, with COUNT definitions or fields:
# - chain: a definition and COUNT more, each of which uses the one before; nothing else does. doubled: the same, where
#   each uses the one before twice. reached: as doubled, and a field uses the last one.
# - wide: fields with an integer each. uses: fields that use one definition.
# - nested: 60 structs one in the other, with COUNT more fields each, whose values are names.
# For `eval`, with COUNT parts:
# - wide: fields with an integer each. deep: 62 structs one in the other, with COUNT such fields each.
# - services: services that use one definition, each declared six times.
# - disjunctions: fields at each of which one of 500 texts may stand. integers, texts: one field with a long `|`.
#   other-integers, other-texts: one with a long `&` of `!=`.
# - elements: a list of integers, and one half as long. structs: a list of structs, each fourth of which uses a definition.
# - uses: fields that use one definition. parts: a field that uses one with a long label again and again. tower:
#   definitions that use the one before twice.
# - unused: a chain of definitions that nothing uses. reached: the same, and a field uses the last. handed: as reached,
#   where the first has COUNT fields. closed: a chain where each closes 5,000 fields again.
# - same-label: declarations of one label. conjunction: a field with a long `&` of structs.
# - nested: fields with an integer in 64 parentheses. long-texts: fields with the longest labels.

# the text so many times
function repeated(text, times,    all) {
    for (; times > 0; times = int(times / 2)) {
        if (times % 2) all = all text
        text = text text
    }
    return all
}

# a number below the count, another one for each number where the count is no multiple of 7,919
function mixed(number) { return number * 7919 % count }

# a letter by its number, which is taken by the number of letters
function letter(number) { return substr(letters, int(number) % 52 + 1, 1) }

# a name of three letters, another one for each number below 140,608
function name(number) { return letter(number / 2704) letter(number / 52) letter(number) }

function chain(twice, is_reached,    number) {
    printf "#%s:{a:1}\n", name(0)
    for (number = 0; number < count; number++) {
        if (twice) printf "#%s:{l:#%s,r:#%s}\n", name(number + 1), name(number), name(number)
        else printf "#%s:{l:#%s}\n", name(number + 1), name(number)
    }
    if (is_reached) printf "x:#%s\n", name(count)
    else printf "x:1\n"
}

function fields(value,    number) {
    for (number = 0; number < count; number++) printf "f%05d: %s\n", number, value
}

function structs_of_names(    level) {
    for (level = 0; level < 60; level++) {
        printf "s: {\n"
        fields("int")
    }
    printf "%s", repeated("}\n", 60)
}

function scope() {
    if (shape == "chain") chain(0, 0)
    else if (shape == "doubled") chain(1, 0)
    else if (shape == "reached") chain(1, 1)
    else if (shape == "wide") fields("1")
    else if (shape == "uses") { printf "#D: int\n"; fields("#D") }
    else if (shape == "nested") structs_of_names()
    else unknown()
}

function deep(    level, number) {
    for (level = 0; level < 62; level++) {
        for (number = 0; number < count; number++) printf "f%d: %d\n", mixed(number), level
        printf "n%d: {\n", level
    }
    printf "end: 1\n%s", repeated("}\n", 62)
}

# the definition of a service, and the start of the services, each of which uses it
function services(    number) {
    printf "#Port: {number: >=1 & <=65535, protocol: *\"tcp\" | \"udp\", name?: string}\n"
    printf "#Service: {\n\timage: string\n\towner!: string\n\treplicas: uint & <=1000\n"
    printf "\ttier: \"web\" | \"db\" | \"cache\" | \"batch\"\n\tregion: *\"eu\" | \"us\" | \"ap\"\n\tport: #Port\n"
    printf "\tenv?: {...}\n\tdebug: *false | true\n\tmemory: >=16 & <=65536\n}\nservices: {\n"
    for (number = 0; number < count; number++) printf "\tsvc%04d: #Service\n", number
}

# what is said of a service beside its definition, in five declarations
function service(number,    team) {
    team = number % 40
    printf "\tsvc%04d: {image: \"team%d/app%d\", owner: \"team-%d\"}\n", number, team, number, team
    printf "\tsvc%04d: env: KEY: \"%d\"\n", number, number
    printf "\tsvc%04d: {replicas: *2 | >=1 & <=20, memory: >=64 & <=4096}\n", number
    printf "\tsvc%04d: {tier: \"web\", port: {number: %d}, region: *\"eu\" | \"us\"}\n", number, 1024 + number % 4096
    printf "\tsvc%04d: {memory: 512, replicas: 3}\n", number
}

# a field at which one of 500 texts may stand
function options(number,    option) {
    printf "field%d: *\"option%d\"", number, number % 500
    for (option = 0; option < 500; option++) printf " | \"option%d\"", option * 7919 % 500
    printf "\n"
}

function wide_definition(labels,    number) {
    printf "#A0: {f0: 1"
    for (number = 1; number < labels; number++) printf ", f%d: 1", number
    printf "}\n"
}

# what stands before the parts
function head() {
    if (shape == "services") services()
    else if (shape == "closed") wide_definition(5000)
    else if (shape == "handed") wide_definition(count)
    else if (shape == "parts") printf "#A: {\"%s\": 1}\nx: {}", repeated("x", 65000)
    else if (shape == "elements") printf "l: [%s...]\nl: [", repeated("int, ", int(count / 2))
    else if (shape == "integers") printf "x: *21"
    else if (shape == "other-integers") printf "x: !=1"
    else if (shape == "texts") printf "x: \"first\""
    else if (shape == "other-texts") printf "x: !=\"first\""
    else if (shape == "structs") printf "#E: {a: int, b?: string}\nl: ["
    else if (shape == "uses") printf "#D: {a: int, b?: string}\n"
    else if (shape ~ /^(tower|unused|reached)$/) printf "#A0: {a: 1}\n"
    else if (shape == "conjunction") printf "a: {}"
    else if (shape !~ /^(wide|disjunctions|same-label|nested|long-texts)$/) unknown()
}

# the part that has this number
function part_of(number) {
    if (shape == "wide") printf "f%05d: %d\n", mixed(number), number
    else if (shape == "services") service(number)
    else if (shape == "disjunctions") options(number)
    else if (shape == "integers") printf " | %d", mixed(number) * 3
    else if (shape == "other-integers") printf " & !=%d", mixed(number) * 2
    else if (shape == "texts") printf " | \"good-%d\"", mixed(number)
    else if (shape == "other-texts") printf " & !=\"bad-%d\"", mixed(number)
    else if (shape == "elements") printf "%d, ", number
    else if (shape == "structs") printf number % 4 ? "{a: %d},\n" : "#E & {a: %d},\n", number
    else if (shape == "uses") printf "f%d: #D\n", mixed(number)
    else if (shape == "parts") printf " & #A"
    else if (shape == "tower") printf "#A%d: {l: #A%d, r: #A%d}\n", number + 1, number, number
    else if (shape == "closed") printf "#A%d: #A%d & {f0: 1}\n", number + 1, number
    else if (shape ~ /^(unused|reached|handed)$/) printf "#A%d: #A%d\n", number + 1, number
    else if (shape == "same-label") printf "a: x%d: 1\n", mixed(number)
    else if (shape == "conjunction") printf " & {x%d: 1}", mixed(number)
    else if (shape == "nested") printf "a%d: %s1%s\n", number, repeated("(", 64), repeated(")", 64)
    else if (shape == "long-texts")
        printf "\"%05d%s\": \"%s\"\n", number, repeated("x", 65530), repeated("y", 20000)
}

# what stands after the parts
function tail() {
    if (shape ~ /^(elements|structs)$/) printf "]\n"
    else if (shape == "services") printf "}\n"
    else if (shape ~ /^(tower|reached|handed|closed)$/) printf "x: #A%d\n", count
    else if (shape == "unused") printf "x: 1\n"
    else printf "\n"
}

function eval(    number) {
    if (shape == "deep") { deep(); return }
    head()
    for (number = 0; number < count; number++) part_of(number)
    tail()
}

function unknown() {
    printf "no shape of %s: %s\n", part, shape > "/dev/stderr"
    exit 2
}

BEGIN {
    letters = "ABCDEFGHIJKLMNOPQRSTUVWXYZabcdefghijklmnopqrstuvwxyz"
    if (part == "scope") scope()
    else eval()
}
