# Begins the commands of a page of recipes: makes a folder `work`, compiles the example deposit there and goes there, with the built pitc,
# pitc_thin and pit-tools in the PATH, and with the deposit's zone files as $zones
# and the Python that has the packages as $python. A shell reads it, at the top of the repository, of an unpacked
# archive, or of a copy of the pages where they are installed:
#
#     . examples/begin.sh
#
# If one of these has no program, the installed one runs. If anything fails, one line says what, and the shell and its folder are unchanged.

{
    begun=$(
        refuse() {
            echo "begin.sh: $1" >&2
            exit 1
        }
        [ -f examples/begin.sh ] || refuse "go to the folder that has examples/begin.sh"
        for folder in crates/pitc/out crates/pitc_thin/out bin python; do
            [ ! -d $folder ] || PATH=$(pwd)/$folder:$PATH
        done
        export LC_ALL=C
        command -v pitc > /dev/null || refuse "no pitc is built here or installed: see docs/install.md"
        command -v pit-tools > /dev/null || refuse "no pit-tools is here or installed: see docs/install.md"
        pit-tools --version > /dev/null 2>&1 ||
            refuse "pit-tools needs a python3 with pandas, numpy, scipy, matplotlib and openpyxl: see docs/install.md"
        mkdir work 2> /dev/null || refuse "cannot make the folder work here: if there is one, remove it or go elsewhere"
        if cd work && pit-tools deposit &&
            pitc compile --plan deposit.plan --out deposit deposit-oxide.csv deposit-west.csv deposit-east.csv >&3; then
            printf %s "$PATH"
        else
            cd .. && rm -r work
            refuse "the example deposit does not compile"
        fi
    )
} 3>&1 || { unset begun; return 1; }
PATH=$begun
unset begun
LC_ALL=C && export LC_ALL
if [ -d python/pit_tools ]; then PYTHONPATH=$(pwd)/python && export PYTHONPATH; fi
python=$(pit-tools --version | sed -n 's/^\(.*\) ([0-9.]*): .*/\1/p')
cd work && zones="deposit-oxide.csv deposit-west.csv deposit-east.csv"
