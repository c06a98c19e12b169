#!/usr/bin/env bash
# Writes the chat's users, and then a message each second (or those of the standard input, one a line, where it is no
# terminal), to the commit port of a server on this machine. Prints what the port answers.
port=${1:-8081}
exec 3<>"/dev/tcp/127.0.0.1/$port" || exit 1

commit() {
  printf '%s\n' "$1" >&3
  IFS= read -r answer <&3 || exit 1
  printf '%s\n' "$answer"
}

# As a JSON string.
quoted() {
  local text=${1//\\/\\\\}
  printf '"%s"' "${text//\"/\\\"}"
}

say() {
  number=$((number + 1))
  commit "[{\"insert\":\"message\",\"row\":{\"id\":$number,\"room\":7,\"author_id\":$((number % 2 + 1)),\"body\":$(quoted "$1")}}]"
}

# A message's number is the time, so that the script can be run again.
number=$(date +%s%3N)
commit '[{"insert":"user","row":{"id":1,"name":"Ann"}},{"insert":"user","row":{"id":2,"name":"Bo"}}]'
if [ -t 0 ]; then
  for words in "Hello" "Hi Ann" "How are you?" "Fine, and you?" "Fine." "See you"; do
    say "$words"
    sleep 1
  done
else
  while IFS= read -r line; do say "$line"; done
fi
