# The service cron of systemd is enabled, and runs.
Configuration Recipe {
 Node 'web1' {
  Command Service {
   Name = 'service cron'
   TestProgram = 'sh'
   TestArguments = @('-c', 'test "$(systemctl is-enabled "$1" 2> /dev/null)" = enabled && systemctl --quiet is-active "$1"', 'service', 'cron.service')
   SetProgram = 'timeout'
   SetArguments = @('300', 'systemctl', 'enable', '--now', 'cron.service')
  }
 }
}
