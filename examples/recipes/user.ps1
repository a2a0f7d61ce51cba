# A user with his home and shell, and a group of which he is a member.
Configuration Recipe {
 Node 'web1' {
  Command Group {
   Name = 'group deployers'
   TestProgram = 'getent'
   TestArguments = @('group', 'deployers')
   SetProgram = 'groupadd'
   SetArguments = @('--force', 'deployers')
  }

  Command User {
   Name = 'user deploy'
   TestProgram = 'sh'
   TestArguments = @('-c', 'test "$(getent passwd "$1" | cut -d: -f6,7)" = "$2:$3"', 'user', 'deploy', '/home/deploy', '/bin/bash')
   SetProgram = 'sh'
   SetArguments = @('-c', 'if getent passwd "$1" > /dev/null
then usermod --home "$2" --shell "$3" "$1"
else useradd --create-home --home-dir "$2" --shell "$3" "$1"
fi', 'user', 'deploy', '/home/deploy', '/bin/bash')
  }

  Command Member {
   Name = 'user deploy in group deployers'
   TestProgram = 'sh'
   TestArguments = @('-c', 'id --groups --name "$1" | tr '' '' ''\n'' | grep -qxF -e "$2"', 'member', 'deploy', 'deployers')
   SetProgram = 'usermod'
   SetArguments = @('--append', '--groups', 'deployers', 'deploy')
   DependsOn = @('[Command]Group', '[Command]User')
  }
 }
}
