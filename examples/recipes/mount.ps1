# A file system is mounted, now and after each boot.
Configuration Recipe {
 Node 'web1' {
  File Scratch {
   DestinationPath = '/srv/scratch'
   Type = 'Directory'
  }

  Command Fstab {
   Name = 'line of /etc/fstab'
   TestProgram = 'grep'
   TestArguments = @('-qxF', '-e', 'tmpfs /srv/scratch tmpfs size=64m,mode=1777 0 0', '/etc/fstab')
   SetProgram = 'sh'
   SetArguments = @('-c', 'if grep -qxF -e "$1" "$2" 2> /dev/null; then exit; fi
if [ -s "$2" ] && [ -n "$(tail -c 1 "$2")" ]; then echo >> "$2"; fi
printf ''%s\n'' "$1" >> "$2"', 'line', 'tmpfs /srv/scratch tmpfs size=64m,mode=1777 0 0', '/etc/fstab')
   DependsOn = @('[File]Scratch')
  }

  Command Mount {
   Name = 'mount /srv/scratch'
   TestProgram = 'findmnt'
   TestArguments = @('--noheadings', '--types', 'tmpfs', '--mountpoint', '/srv/scratch')
   SetProgram = 'sh'
   SetArguments = @('-c', 'mountpoint -q "$1" || timeout 60 mount "$1"', 'mount', '/srv/scratch')
   DependsOn = @('[Command]Fstab')
  }
 }
}
