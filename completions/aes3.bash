# Completion of aes3 in bash. Made by bin/make-manual from what the program says of itself.

# Those of the words that begin with what is typed. Where bash parts words at `=`, it wants what is behind it.
_aes3_words() {
    local each front=
    [[ $COMP_WORDBREAKS == *=* ]] && front=${typed%"${typed##*=}"}
    for each; do
        [[ $each == "$typed"* ]] && COMPREPLY+=("$lead${each#"$front"}")
    done
}

# Those of the first place of which none of its words is there yet.
_aes3_due() {
    local each word
    for each; do
        for word in $each; do [[ " ${words[*]} " == *" $word "* ]] && continue 2; done
        _aes3_words $each
        return 0
    done
    return 1
}

_aes3_setting() {
    case $typed in
        use=*) _aes3_words use={consumer,professional} ;;
        payload=*) _aes3_words payload={pcm,other} ;;
        emphasis=*) _aes3_words emphasis={not-indicated,none,50/15,j17} ;;
        unlocked=*) _aes3_words unlocked={no,yes} ;;
        rate=*) _aes3_words rate={not-indicated,44100,48000,32000,24000,96000,192000,22050,88200,176400,user-defined,768000} ;;
        mode=*) _aes3_words mode={not-indicated,stereophonic,single,two-channel,primary-secondary,vector-to-byte-3,0,1,2,3} ;;
        user=*) _aes3_words user={not-indicated,block192,user} ;;
        aux=*) _aes3_words aux={undefined,coordination,audio,user} ;;
        word=*) _aes3_words word={not-indicated,16,18,19,20,17,22,23,24,21} ;;
        b2high=*) _aes3_words b2high={0,1,2,3} ;;
        b3=*) _aes3_words b3={0..255} ;;
        b4=*) _aes3_words b4={0..255} ;;
        b5=*) _aes3_words b5={0..255} ;;
        unreliable=*) _aes3_words unreliable={0000,1000,0100,1100,0010,1010,0110,1110,0001,1001,0101,1101,0011,1011,0111,1111} ;;
        b22low=*) _aes3_words b22low={0,1,2,3,4,5,6,7,8,9,10,11,12,13,14,15} ;;
        origin=*) ;;
        destination=*) ;;
        local=*) ;;
        time=*) ;;
        copyright=*) _aes3_words copyright={asserted,not-asserted} ;;
        category=*) _aes3_words category={general,cd,dat,pcm-coder,dab-japan,synthesizer,adc,solid-state-recorder,non-iec908-cd,video-recorder,dab-europe,microphone,mixer,adc-copyright,dvd,rate-converter,magnetic-disc,sampler,iec62105,sound-processor,experimental,dcc,software-delivery,mini-disc,dab-usa,other-adc,other-adc-copyright,other-solid-state,other-laser-optical,other-converter,other-magnetic,other-broadcast,other-musical} ;;
        generation=*) _aes3_words generation={0,1} ;;
        source=*) _aes3_words source={not-specified,1,2,3,4,5,6,7,8,9,10,11,12,13,14,15} ;;
        number=*) _aes3_words number={not-specified,1,2,3,4,5,6,7,8,9,10,11,12,13,14,15} ;;
        accuracy=*) _aes3_words accuracy={level2,level1,level3} ;;
        b3high=*) _aes3_words b3high={0,1,2,3} ;;
        greatest=*) _aes3_words greatest={20,24} ;;
        original=*) _aes3_words original={0,1,2,3,4,5,6,7,8,9,10,11,12,13,14,15,not-indicated,192000,12000,176400,96000,8000,88200,16000,24000,11025,22050,32000,48000,44100} ;;
        *) compopt -o nospace; _aes3_words use= payload= emphasis= unlocked= rate= mode= user= aux= word= b2high= b3= b4= b5= unreliable= b22low= origin= destination= local= time= copyright= category= generation= source= number= accuracy= b3high= greatest= original= ;;
    esac
}

_aes3() {
    local line=${COMP_LINE:0:COMP_POINT}
    local typed=${line##*[[:space:]]} lead= words option=
    read -ra words <<<"${line%"$typed"}"
    # A value behind its option and `=`.
    if [[ $typed == --*=* ]]; then
        option=${typed%%=*} typed=${typed#*=}
        [[ $COMP_WORDBREAKS == *=* ]] || lead=$option=
        words+=("$option")
    fi
    COMPREPLY=()
    case ${COMP_WORDS[COMP_CWORD - 1]} in
        # Bash's own completion of file names keeps those with spaces one word.
        *'<' | *'>') compopt -o default; return ;;
    esac
    case ${words[-1]} in
        --set | --set1 | --set2) _aes3_setting; return ;;
        --valid1 | --valid2) _aes3_words 0 1; return ;;
        --bits) _aes3_words 16 24 32; return ;;
        --mono) _aes3_words both first; return ;;
        --preset | --use) _aes3_words consumer professional; return ;;
        --words) _aes3_words own alsa am824; return ;;
        --pcm) _aes3_words s32 s24 s24in32 s16; return ;;
        --fill) _aes3_words zero hold; return ;;
        --channels | --every | --every-seconds | --input | --output | --rate | --status1 | --status2) return ;;
        --explain) _aes3_words 1 2 3 4 5 6 7 8 9 10 11 12 13 14 15; return ;;
    esac
    [ -z "$option" ] || return
    if [ "$COMP_CWORD" = 1 ]; then
        _aes3_words encode decode normal check watch info show scan cut rewrite to-pcm from-pcm to-wav from-wav to-bits --help --version --explain
        return
    fi
    case ${COMP_WORDS[1]} in
        to-bits) [[ $typed != -* ]] && _aes3_due 'user validity status' '1 2' && return ;;
    esac
    case ${COMP_WORDS[1]} in
        decode | normal | check | watch | info | show | scan | rewrite | to-pcm | from-pcm | to-wav | from-wav | to-bits) [[ $typed == -* ]] || { compopt -o default; return; } ;;
    esac
    case ${COMP_WORDS[1]} in
        encode) _aes3_words --packed-out --lsb-first --words --input --output --help ;;
        decode) _aes3_words --packed-in --raw-in --lsb-first --words --input --output --help ;;
        normal) _aes3_words --packed-in --raw-in --packed-out --lsb-first --input --output --help ;;
        check) _aes3_words --packed-in --raw-in --lsb-first --faults --gaps --input --output --help ;;
        watch) _aes3_words --packed-in --raw-in --lsb-first --json --rate --every --every-seconds --input --output --help ;;
        info) _aes3_words --packed-in --raw-in --lsb-first --json --input --output --help ;;
        show) _aes3_words --packed-in --raw-in --lsb-first --changes --at --more --names --input --output --help ;;
        scan) _aes3_words --packed-in --raw-in --lsb-first --input --output --help ;;
        cut) _aes3_words --packed-in --raw-in --packed-out --lsb-first --input --output --help ;;
        rewrite) _aes3_words --packed-in --raw-in --packed-out --lsb-first --status1 --status2 --preset --set --set1 --set2 --mend-check --valid1 --valid2 --clear-user1 --clear-user2 --exact --input --output --help ;;
        to-pcm) _aes3_words --packed-in --raw-in --lsb-first --pcm --valid --fill --marked --exact --input --output --help ;;
        from-pcm) _aes3_words --status1 --status2 --preset --rate --set --set1 --set2 --mend-check --exact --pcm --words --input --output --help ;;
        to-wav) _aes3_words --packed-in --raw-in --lsb-first --bits --rate --valid --fill --marked --exact --input --output --help ;;
        from-wav) _aes3_words --channels --mono --use --status1 --status2 --preset --rate --set --set1 --set2 --mend-check --exact --words --input --output --help ;;
        to-bits) _aes3_words --packed-in --raw-in --lsb-first --input --output --help ;;
    esac
}
complete -F _aes3 aes3
