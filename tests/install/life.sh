# SPDX-License-Identifier: MIT OR Apache-2.0
# The life of the packages in a root of its own, over the files of this machine, which stay as they are:
#
#     unshare --mount sh life.sh FOLDER OLD.deb.. -- NEW.deb..
#
# `systemctl` changes no running system there: it answers as if systemd ran and no unit did, and notes what it is told. After each
# step a line `== STEP` follows, and then what is there. The status is 77 if there can be no such root.
set -e
folder=$1
shift
mount -t tmpfs none "$folder" || exit 77
mkdir "$folder/new" "$folder/work" "$folder/root"
mount -t overlay -o "lowerdir=/,upperdir=$folder/new,workdir=$folder/work" none "$folder/root" || exit 77
mount --bind /proc "$folder/root/proc"
mount --bind /dev "$folder/root/dev"
mount -t tmpfs none "$folder/root/run"
mkdir -p "$folder/root/run/systemd/system"
rm -f "$folder/root/usr/sbin/policy-rc.d" # which may say that no service is to be started
rm -f "$folder/root/var/lib/man-db/auto-update" # an index of all the machine's pages takes its time
mv "$folder/root/usr/bin/systemctl" "$folder/root/run/real"
cat >"$folder/root/usr/bin/systemctl" <<'END'
#!/bin/sh
case " $* " in
    *" is-active "*) exit 3 ;;
    *" is-enabled "* | *" enable "*) exec /run/real --root=/ $(printf '%s\n' "$@" | grep -v '^--system$\|^--$\|^--quiet$') ;;
    *) echo "$*" >>/run/calls ;;
esac
END
chmod 755 "$folder/root/usr/bin/systemctl"

exec chroot "$folder/root" sh -es "$@" <<'END'
old= new= names=
while [ "$1" != -- ]; do old="$old $1"; shift; done
shift
for package; do new="$new $package"; names="$names $(dpkg-deb -f "$package" Package)"; done
quietly() { "$@" >/run/said 2>&1 || { cat /run/said >&2; exit 1; }; }

# What is there: the versions, files, owners and links, and what systemd was told since the last step.
show() {
    echo "== $1"
    dpkg-query -W -f '${Package} ${Version} ${db:Status-Status}\n' $names 2>/dev/null | grep -v 'not-installed$' | sort || :
    for path in /usr/bin/rrdi /usr/bin/rrdi-show /usr/share/rrdi /usr/share/rrdi/former /usr/share/rrdi/docs/plotting.md /etc/perl/RRDs.pm \
        /usr/lib/python3/dist-packages/rrdi /lib/systemd/system/rrdi-feed.service /lib/systemd/system/rrdi-former.service; do
        [ ! -e "$path" ] || echo "there $path"
    done
    find /usr/share/rrdi /usr/lib/python3/dist-packages -name '*.pyc' -path '*rrdi*' 2>/dev/null | grep -q . && echo compiled || :
    find /var/lib/rrdi /etc/default/rrdi-feed /etc/systemd/system/rrdi-feed.service.d -type f -exec cksum {} + 2>/dev/null | sort -k 3 || :
    stat -c 'folder %U:%G %a' /var/lib/rrdi 2>/dev/null || :
    getent passwd rrdi | sed 's/^\([^:]*\):.*:\([^:]*\):\([^:]*\)$/account \1 \2 \3/' || :
    find /etc/systemd/system /var/lib/systemd/deb-systemd-helper-enabled -path '*wants/rrdi*' 2>/dev/null | sed 's/^/link /' | sort
    [ ! -e /run/calls ] || sed 's/^/told /' /run/calls
    rm -f /run/calls
}

show before
quietly dpkg --install $old; show installed
echo 'OPTIONS=--graphite /var/lib/rrdi' >/etc/default/rrdi-feed
mkdir /etc/systemd/system/rrdi-feed.service.d
printf '[Service]\nNice=5\n' >/etc/systemd/system/rrdi-feed.service.d/own.conf
seq 300 >/var/lib/rrdi/load.rrdi
chown rrdi: /var/lib/rrdi/load.rrdi
quietly systemctl enable rrdi-record.timer rrdi-feed.socket rrdi-feed.service; show enabled
quietly dpkg --install $new; show upgraded
rrdi-show --version
perl -T -MRRDs -e 'print "perl $INC{q(RRDs.pm)}\n"'
quietly dpkg --install $old; show downgraded
quietly dpkg --remove $names; show removed
quietly dpkg --install $new; show returned
quietly dpkg --purge $names; show purged
END
