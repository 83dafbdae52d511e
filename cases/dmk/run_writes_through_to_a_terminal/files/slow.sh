printf 'half, '
sleep 1.2
sh seen.sh whole
