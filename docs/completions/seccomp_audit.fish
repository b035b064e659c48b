# Completions of seccomp_audit for fish, made by tools/documents.

# The folder of the policies that come with the program: those that are installed beside it, or those of its checkout.
function __seccomp_audit_folder
    set -l program (command -v seccomp_audit | string replace -r '[^/]*$' '')
    for folder in {$program}../share/seccomp_audit/policies {$program}../../policies
        if test -f $folder/names.toml
            path resolve $folder 2> /dev/null; or realpath $folder
            return
        end
    end
end

# The names of all sets of calls, and those of all calls.
function __seccomp_audit_sets
    sed -n 's/^\[\([a-z0-9_]*\)\]$/\1/p' (__seccomp_audit_folder)/names.toml 2> /dev/null
end

function __seccomp_audit_calls
    sed -n 's/^\([a-z0-9_]*\) = [0-9]*$/\1/p' (__seccomp_audit_folder)/names.toml 2> /dev/null | sort -u
end

# The files of a kind that come with the program.
function __seccomp_audit_installed
    for file in (__seccomp_audit_folder)/*.toml
        switch $argv[1]:(basename $file)
            case 'controls:control-*' names:names.toml groups:groups.toml
                echo @(basename $file .toml)
            case 'policies:control-*' policies:names.toml policies:groups.toml
            case 'policies:*'
                echo @(basename $file .toml)
        end
    end
end

complete -c seccomp_audit -f
complete -c seccomp_audit -n __fish_use_subcommand -l help -d 'Print help'
complete -c seccomp_audit -n __fish_use_subcommand -l version -d 'Print version'
complete -c seccomp_audit -n __fish_use_subcommand -a audit -d 'Answer the questions of a policy about a stack of filters'
complete -c seccomp_audit -n __fish_use_subcommand -a check -d 'Check whether files are lawful filters that make a lawful stack'
complete -c seccomp_audit -n __fish_use_subcommand -a eval -d 'Show what a stack of filters answers to one input'
complete -c seccomp_audit -n __fish_use_subcommand -a compare -d 'Tell for all inputs what a change of a stack of filters lets through'
complete -c seccomp_audit -n __fish_use_subcommand -a list -d 'List for all inputs what a stack of filters answers'
complete -c seccomp_audit -n __fish_use_subcommand -a needed -d 'Tell for each filter of a stack whether more gets through without it'
complete -c seccomp_audit -n __fish_use_subcommand -a profile -d 'Write the filter that a JSON profile means, to be compared with what is installed'
complete -c seccomp_audit -n __fish_use_subcommand -a help -d 'Print the help of a command'
complete -c seccomp_audit -n '__fish_seen_subcommand_from help' -a 'audit check eval compare list needed profile'
complete -c seccomp_audit -n '__fish_seen_subcommand_from audit' -F
complete -c seccomp_audit -n '__fish_seen_subcommand_from audit' -l policy -r -F -a '(__seccomp_audit_installed policies)' -d 'A policy file, which asks questions, once for each file; @auto is the ready one that fits'
complete -c seccomp_audit -n '__fish_seen_subcommand_from audit' -l control -r -F -a '(__seccomp_audit_installed controls)' -d 'A policy each of whose questions must be allowed, else the status is 2'
complete -c seccomp_audit -n '__fish_seen_subcommand_from audit' -l accept -r -F -d 'The names of questions that may be allowed, one a line, with comments behind #'
complete -c seccomp_audit -n '__fish_seen_subcommand_from audit' -l budget -x -d 'The most pieces that are worked on, 1 to 1000000 [default: 100000]'
complete -c seccomp_audit -n '__fish_seen_subcommand_from audit' -l workers -x -d 'The number of workers, 1 to 64: 1 is as fast, and answers more under a budget [default: 4]'
complete -c seccomp_audit -n '__fish_seen_subcommand_from audit' -l regions -d 'List the settled regions too'
complete -c seccomp_audit -n '__fish_seen_subcommand_from audit' -l why -d 'Show of each example the call, and which instruction lets it through'
complete -c seccomp_audit -n '__fish_seen_subcommand_from audit' -l summary -d 'Write in place of the report which groups have questions that are allowed'
complete -c seccomp_audit -n '__fish_seen_subcommand_from audit' -l summary-all -d 'The same with the call of each example, one a line'
complete -c seccomp_audit -n '__fish_seen_subcommand_from audit' -l groups -r -F -a '(__seccomp_audit_installed groups)' -d 'A file of groups for the summary, such as policies/groups.toml'
complete -c seccomp_audit -n '__fish_seen_subcommand_from audit' -l names -r -F -a '(__seccomp_audit_installed names)' -d 'A file of names of calls, once for each file; @names if needed and not given'
complete -c seccomp_audit -n '__fish_seen_subcommand_from audit' -l json -d 'Write one JSON document in place of the text'
complete -c seccomp_audit -n '__fish_seen_subcommand_from audit' -l progress -d 'Tell each second on standard error how much is done'
complete -c seccomp_audit -n '__fish_seen_subcommand_from audit' -l quiet -d 'Leave out the warnings on standard error'
complete -c seccomp_audit -n '__fish_seen_subcommand_from audit' -l explain-errors -d 'Explain an error under its line: where it lies, and what its number means'
complete -c seccomp_audit -n '__fish_seen_subcommand_from audit' -l help -d 'Print help'
complete -c seccomp_audit -n '__fish_seen_subcommand_from check' -F
complete -c seccomp_audit -n '__fish_seen_subcommand_from check' -l instructions -d 'List the instructions of each filter too'
complete -c seccomp_audit -n '__fish_seen_subcommand_from check' -l json -d 'Write one JSON document in place of the text'
complete -c seccomp_audit -n '__fish_seen_subcommand_from check' -l quiet -d 'Leave out the warnings on standard error'
complete -c seccomp_audit -n '__fish_seen_subcommand_from check' -l explain-errors -d 'Explain an error under its line: where it lies, and what its number means'
complete -c seccomp_audit -n '__fish_seen_subcommand_from check' -l help -d 'Print help'
complete -c seccomp_audit -n '__fish_seen_subcommand_from eval' -F
complete -c seccomp_audit -n '__fish_seen_subcommand_from eval' -l input -x -d 'The 64 bytes of struct seccomp_data as 128 hexadecimal digits'
complete -c seccomp_audit -n '__fish_seen_subcommand_from eval' -l call -x -a '(__seccomp_audit_calls)' -d 'Instead: a call by its name; needs --arch and --args'
complete -c seccomp_audit -n '__fish_seen_subcommand_from eval' -l nr -x -d 'Instead: a call by its number; needs --arch and --args'
complete -c seccomp_audit -n '__fish_seen_subcommand_from eval' -l arch -x -a '(__seccomp_audit_sets)' -d 'The call\'s set of --names, such as x86_64; with --nr also an architecture\'s number'
complete -c seccomp_audit -n '__fish_seen_subcommand_from eval' -l args -x -d 'The call\'s arguments, one to six numbers; 0 for those left out'
complete -c seccomp_audit -n '__fish_seen_subcommand_from eval' -l trace -d 'Show what each filter meets and returns too'
complete -c seccomp_audit -n '__fish_seen_subcommand_from eval' -l trace-true -d 'The same without the comparisons that are false'
complete -c seccomp_audit -n '__fish_seen_subcommand_from eval' -l names -r -F -a '(__seccomp_audit_installed names)' -d 'A file of names of calls, once for each file; @names if needed and not given'
complete -c seccomp_audit -n '__fish_seen_subcommand_from eval' -l json -d 'Write one JSON document in place of the text'
complete -c seccomp_audit -n '__fish_seen_subcommand_from eval' -l explain-errors -d 'Explain an error under its line: where it lies, and what its number means'
complete -c seccomp_audit -n '__fish_seen_subcommand_from eval' -l help -d 'Print help'
complete -c seccomp_audit -n '__fish_seen_subcommand_from compare' -F
complete -c seccomp_audit -n '__fish_seen_subcommand_from compare' -l old -r -F -d 'The filter files before the change, in order of installation'
complete -c seccomp_audit -n '__fish_seen_subcommand_from compare' -l new -r -F -d 'The filter files after the change'
complete -c seccomp_audit -n '__fish_seen_subcommand_from compare' -l nodes -x -d 'The most nodes that the decision diagrams may have, 1 to 16000000 [default: 1000000]'
complete -c seccomp_audit -n '__fish_seen_subcommand_from compare' -l same -d 'Let the exit status tell of different, not of looser'
complete -c seccomp_audit -n '__fish_seen_subcommand_from compare' -l rows -d 'List the rows whose answers differ too'
complete -c seccomp_audit -n '__fish_seen_subcommand_from compare' -l only -x -a 'looser tighter different' -d 'Of the rows only those of a relation: looser, tighter or different'
complete -c seccomp_audit -n '__fish_seen_subcommand_from compare' -l calls -x -a '(__fish_complete_list , __seccomp_audit_calls)' -d 'A line for each row of these calls; given last, or before an option, of all calls'
complete -c seccomp_audit -n '__fish_seen_subcommand_from compare' -l names -r -F -a '(__seccomp_audit_installed names)' -d 'A file of names of calls, once for each file; @names if needed and not given'
complete -c seccomp_audit -n '__fish_seen_subcommand_from compare' -l json -d 'Write one JSON document in place of the text'
complete -c seccomp_audit -n '__fish_seen_subcommand_from compare' -l quiet -d 'Leave out the warnings on standard error'
complete -c seccomp_audit -n '__fish_seen_subcommand_from compare' -l explain-errors -d 'Explain an error under its line: where it lies, and what its number means'
complete -c seccomp_audit -n '__fish_seen_subcommand_from compare' -l help -d 'Print help'
complete -c seccomp_audit -n '__fish_seen_subcommand_from list' -F
complete -c seccomp_audit -n '__fish_seen_subcommand_from list' -l nodes -x -d 'The most nodes that the decision diagrams may have, 1 to 16000000 [default: 1000000]'
complete -c seccomp_audit -n '__fish_seen_subcommand_from list' -l names -r -F -a '(__seccomp_audit_installed names)' -d 'A file of names of calls, once for each file; @names if needed and not given'
complete -c seccomp_audit -n '__fish_seen_subcommand_from list' -l calls -x -a '(__fish_complete_list , __seccomp_audit_calls)' -d 'A line for each row of these calls; given last, or before an option, of all calls'
complete -c seccomp_audit -n '__fish_seen_subcommand_from list' -l digest -d 'Write one line with a digest of the rows: stacks that answer alike have the same'
complete -c seccomp_audit -n '__fish_seen_subcommand_from list' -l json -d 'Write one JSON document in place of the text'
complete -c seccomp_audit -n '__fish_seen_subcommand_from list' -l quiet -d 'Leave out the warnings on standard error'
complete -c seccomp_audit -n '__fish_seen_subcommand_from list' -l explain-errors -d 'Explain an error under its line: where it lies, and what its number means'
complete -c seccomp_audit -n '__fish_seen_subcommand_from list' -l help -d 'Print help'
complete -c seccomp_audit -n '__fish_seen_subcommand_from needed' -F
complete -c seccomp_audit -n '__fish_seen_subcommand_from needed' -l nodes -x -d 'The most nodes that the decision diagrams may have, 1 to 16000000 [default: 1000000]'
complete -c seccomp_audit -n '__fish_seen_subcommand_from needed' -l json -d 'Write one JSON document in place of the text'
complete -c seccomp_audit -n '__fish_seen_subcommand_from needed' -l quiet -d 'Leave out the warnings on standard error'
complete -c seccomp_audit -n '__fish_seen_subcommand_from needed' -l explain-errors -d 'Explain an error under its line: where it lies, and what its number means'
complete -c seccomp_audit -n '__fish_seen_subcommand_from needed' -l help -d 'Print help'
complete -c seccomp_audit -n '__fish_seen_subcommand_from profile' -F
complete -c seccomp_audit -n '__fish_seen_subcommand_from profile' -l machine -x -a 'x86_64 i386 aarch64 arm' -d 'The machine: x86_64, i386, aarch64 or arm'
complete -c seccomp_audit -n '__fish_seen_subcommand_from profile' -l names -r -F -a '(__seccomp_audit_installed names)' -d 'A file of names of calls, once for each file; @names if needed and not given'
complete -c seccomp_audit -n '__fish_seen_subcommand_from profile' -l cap -x -d 'A capability that the container has, such as CAP_SYS_PTRACE; once for each'
complete -c seccomp_audit -n '__fish_seen_subcommand_from profile' -l kernel -x -d 'The version of the kernel, such as 6.12'
complete -c seccomp_audit -n '__fish_seen_subcommand_from profile' -l conflicts -x -a 'strictest mildest first' -d 'Which rule counts where several speak of one call: strictest, mildest or first [default: strictest]'
complete -c seccomp_audit -n '__fish_seen_subcommand_from profile' -l newer -d 'Let calls that are newer than the profile fail with ENOSYS, as runc does'
complete -c seccomp_audit -n '__fish_seen_subcommand_from profile' -l skip-unknown -d 'Pass over names that no set of calls has'
complete -c seccomp_audit -n '__fish_seen_subcommand_from profile' -l notes -d 'Write what the profile has, and not its filter'
complete -c seccomp_audit -n '__fish_seen_subcommand_from profile' -l quiet -d 'Leave out the warnings on standard error'
complete -c seccomp_audit -n '__fish_seen_subcommand_from profile' -l explain-errors -d 'Explain an error under its line: where it lies, and what its number means'
complete -c seccomp_audit -n '__fish_seen_subcommand_from profile' -l help -d 'Print help'
