# A line stands in a file, whatever else does.
Configuration Recipe {
 Node 'web1' {
  Command Line {
   Name = 'line of /etc/hosts'
   TestProgram = 'grep'
   TestArguments = @('-qxF', '-e', '192.0.2.7 builder', '/etc/hosts')
   SetProgram = 'sh'
   SetArguments = @('-c', 'if grep -qxF -e "$1" "$2" 2> /dev/null; then exit; fi
if [ -s "$2" ] && [ -n "$(tail -c 1 "$2")" ]; then echo >> "$2"; fi
printf ''%s\n'' "$1" >> "$2"', 'line', '192.0.2.7 builder', '/etc/hosts')
  }
 }
}
