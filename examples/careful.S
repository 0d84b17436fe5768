{module, careful}.  %% version = 0

{exports, [{both,2},
           {divided,2},
           {first,2},
           {module_info,0},
           {module_info,1},
           {named,2},
           {outcome,2},
           {sum,1}]}.

{attributes, []}.

{labels, 60}.


{function, divided, 2, 2}.
  {label,1}.
    {line,[{location,"careful.erl",6}]}.
    {func_info,{atom,careful},{atom,divided},2}.
  {label,2}.
    {allocate,2,2}.
    {move,{x,1},{y,0}}.
    {'try',{y,1},{f,3}}.
    {line,[{location,"careful.erl",7}]}.
    {gc_bif,'div',{f,0},2,[{x,0},{x,1}],{x,0}}.
    {try_end,{y,1}}.
    {test_heap,3,1}.
    {put_tuple2,{x,0},{list,[{atom,ok},{x,0}]}}.
    {deallocate,2}.
    return.
  {label,3}.
    {try_case,{y,1}}.
    {test,is_eq_exact,{f,5},[{x,0},{atom,error}]}.
    {test,is_eq_exact,{f,5},[{x,1},{atom,badarith}]}.
    {test,is_eq_exact,{f,4},[{y,0},{integer,0}]}.
    {move,{literal,{error,by_zero}},{x,0}}.
    {deallocate,2}.
    return.
  {label,4}.
    {move,{literal,{error,no_integer}},{x,0}}.
    {deallocate,2}.
    return.
  {label,5}.
    {bif,raise,{f,0},[{x,2},{x,1}],{x,0}}.


{function, first, 2, 7}.
  {label,6}.
    {line,[{location,"careful.erl",15}]}.
    {func_info,{atom,careful},{atom,first},2}.
  {label,7}.
    {allocate,1,2}.
    {'try',{y,0},{f,8}}.
    {line,[{location,"careful.erl",16}]}.
    {call,2,{f,11}}.
    {'%',{var_info,{x,0},[{type,{t_atom,[ok]}}]}}.
    {try_end,{y,0}}.
    {move,{atom,none},{x,0}}.
    {deallocate,1}.
    return.
  {label,8}.
    {try_case,{y,0}}.
    {test,is_eq_exact,{f,9},[{x,0},{atom,throw}]}.
    {test,is_tagged_tuple,{f,9},[{x,1},2,{atom,found}]}.
    {move,{x,1},{x,0}}.
    {deallocate,1}.
    return.
  {label,9}.
    {bif,raise,{f,0},[{x,2},{x,1}],{x,0}}.


{function, search, 2, 11}.
  {label,10}.
    {line,[{location,"careful.erl",22}]}.
    {func_info,{atom,careful},{atom,search},2}.
  {label,11}.
    {test,is_nonempty_list,{f,13},[{x,1}]}.
    {get_list,{x,1},{x,2},{x,1}}.
    {test,is_lt,{f,12},[{x,0},{x,2}]}.
    {test_heap,3,3}.
    {put_tuple2,{x,0},{list,[{atom,found},{x,2}]}}.
    {line,[{location,"careful.erl",23}]}.
    {call_ext_only,1,{extfunc,erlang,throw,1}}.
  {label,12}.
    {call_only,2,{f,11}}.
  {label,13}.
    {test,is_nil,{f,10},[{x,1}]}.
    {move,{atom,ok},{x,0}}.
    return.


{function, sum, 1, 15}.
  {label,14}.
    {line,[{location,"careful.erl",30}]}.
    {func_info,{atom,careful},{atom,sum},1}.
  {label,15}.
    {allocate,1,1}.
    {'catch',{y,0},{f,16}}.
    {line,[{location,"careful.erl",31}]}.
    {call,1,{f,20}}.
    {'%',{var_info,{x,0},[{type,number}]}}.
  {label,16}.
    {catch_end,{y,0}}.
    {test,is_tagged_tuple,{f,18},[{x,0},2,{atom,'EXIT'}]}.
    {get_tuple_element,{x,0},1,{x,0}}.
    {test,is_tuple,{f,17},[{x,0}]}.
    {test,test_arity,{f,17},[{x,0},2]}.
    {test_heap,3,1}.
    {get_tuple_element,{x,0},0,{x,0}}.
    {put_tuple2,{x,0},{list,[{atom,failed},{x,0}]}}.
    {deallocate,1}.
    return.
  {label,17}.
    {test_heap,3,1}.
    {put_tuple2,{x,0},{list,[{atom,left},{x,0}]}}.
    {deallocate,1}.
    return.
  {label,18}.
    {deallocate,1}.
    return.


{function, added, 1, 20}.
  {label,19}.
    {line,[{location,"careful.erl",37}]}.
    {func_info,{atom,careful},{atom,added},1}.
  {label,20}.
    {test,is_nonempty_list,{f,22},[{x,0}]}.
    {get_list,{x,0},{x,1},{x,0}}.
    {test,is_eq_exact,{f,21},[{x,1},{atom,stop}]}.
    {move,{atom,stopped},{x,0}}.
    {line,[{location,"careful.erl",38}]}.
    {call_ext_only,1,{extfunc,erlang,exit,1}}.
  {label,21}.
    {allocate,1,2}.
    {move,{x,1},{y,0}}.
    {line,[{location,"careful.erl",40}]}.
    {call,1,{f,20}}.
    {'%',{var_info,{x,0},[{type,number}]}}.
    {line,[{location,"careful.erl",40}]}.
    {gc_bif,'+',{f,0},1,[{y,0},{x,0}],{x,0}}.
    {deallocate,1}.
    return.
  {label,22}.
    {test,is_nil,{f,19},[{x,0}]}.
    {move,{integer,0},{x,0}}.
    return.


{function, outcome, 2, 24}.
  {label,23}.
    {line,[{location,"careful.erl",45}]}.
    {func_info,{atom,careful},{atom,outcome},2}.
  {label,24}.
    {allocate,1,2}.
    {'try',{y,0},{f,25}}.
    {line,[{location,"careful.erl",46}]}.
    {call,2,{f,31}}.
    {try_end,{y,0}}.
    {test_heap,3,1}.
    {put_tuple2,{x,0},{list,[{atom,returned},{x,0}]}}.
    {deallocate,1}.
    return.
  {label,25}.
    {try_case,{y,0}}.
    {select_val,{x,0},
                {f,29},
                {list,[{atom,error},
                       {f,28},
                       {atom,exit},
                       {f,27},
                       {atom,throw},
                       {f,26}]}}.
  {label,26}.
    {test_heap,3,2}.
    {put_tuple2,{x,0},{list,[{atom,thrown},{x,1}]}}.
    {deallocate,1}.
    return.
  {label,27}.
    {test_heap,3,2}.
    {put_tuple2,{x,0},{list,[{atom,left},{x,1}]}}.
    {deallocate,1}.
    return.
  {label,28}.
    {test_heap,3,2}.
    {put_tuple2,{x,0},{list,[{atom,failed},{x,1}]}}.
    {deallocate,1}.
    return.
  {label,29}.
    {bif,raise,{f,0},[{x,2},{x,1}],{x,0}}.


{function, step, 2, 31}.
  {label,30}.
    {line,[{location,"careful.erl",54}]}.
    {func_info,{atom,careful},{atom,step},2}.
  {label,31}.
    {select_val,{x,0},
                {f,30},
                {list,[{atom,'case'},
                       {f,40},
                       {atom,fail},
                       {f,39},
                       {atom,half},
                       {f,37},
                       {atom,head},
                       {f,36},
                       {atom,'if'},
                       {f,34},
                       {atom,leave},
                       {f,33},
                       {atom,match},
                       {f,32}]}}.
  {label,32}.
    {test,is_tagged_tuple,{f,43},[{x,1},2,{atom,ok}]}.
    {get_tuple_element,{x,1},1,{x,0}}.
    return.
  {label,33}.
    {test_heap,3,2}.
    {put_tuple2,{x,0},{list,[{atom,asked},{x,1}]}}.
    {line,[{location,"careful.erl",74}]}.
    {call_ext_only,1,{extfunc,erlang,exit,1}}.
  {label,34}.
    {test,is_lt,{f,35},[{integer,0},{x,1}]}.
    {move,{atom,positive},{x,0}}.
    return.
  {label,35}.
    {test,is_lt,{f,44},[{x,1},{integer,0}]}.
    {move,{atom,negative},{x,0}}.
    return.
  {label,36}.
    {line,[{location,"careful.erl",59}]}.
    {bif,hd,{f,0},[{x,1}],{x,0}}.
    return.
  {label,37}.
    {gc_bif,'rem',{f,38},2,[{x,1},{integer,2}],{x,0}}.
    {test,is_eq_exact,{f,38},[{x,0},{integer,0}]}.
    {line,[{location,"careful.erl",55}]}.
    {gc_bif,'div',{f,0},2,[{x,1},{integer,2}],{x,0}}.
    return.
  {label,38}.
    {test_heap,3,2}.
    {put_tuple2,{x,0},{list,[{atom,odd},{x,1}]}}.
    {line,[{location,"careful.erl",57}]}.
    {call_ext_only,1,{extfunc,erlang,throw,1}}.
  {label,39}.
    {move,{x,1},{x,0}}.
    {line,[{location,"careful.erl",76}]}.
    {call_ext_only,1,{extfunc,erlang,error,1}}.
  {label,40}.
    {select_val,{x,1},{f,45},{list,[{atom,no},{f,42},{atom,yes},{f,41}]}}.
  {label,41}.
    {move,{atom,true},{x,0}}.
    return.
  {label,42}.
    {move,{atom,false},{x,0}}.
    return.
  {label,43}.
    {line,[{location,"careful.erl",61}]}.
    {badmatch,{x,1}}.
  {label,44}.
    {line,[{location,"careful.erl",64}]}.
    if_end.
  {label,45}.
    {line,[{location,"careful.erl",69}]}.
    {case_end,{x,1}}.


{function, named, 2, 47}.
  {label,46}.
    {line,[{location,"careful.erl",79}]}.
    {func_info,{atom,careful},{atom,named},2}.
  {label,47}.
    {allocate,2,2}.
    {move,{x,0},{y,0}}.
    {'try',{y,1},{f,48}}.
    {line,[{location,"careful.erl",81}]}.
    {call,2,{f,31}}.
    {try_end,{y,1}}.
    {deallocate,2}.
    return.
  {label,48}.
    {try_case,{y,1}}.
    {test_heap,3,3}.
    {put_tuple2,{x,1},{list,[{y,0},{x,1}]}}.
    raw_raise.
    {deallocate,2}.
    return.


{function, both, 2, 50}.
  {label,49}.
    {line,[{location,"careful.erl",87}]}.
    {func_info,{atom,careful},{atom,both},2}.
  {label,50}.
    {allocate_zero,4,2}.
    {move,{x,1},{y,1}}.
    {'try',{y,3},{f,54}}.
    {move,{x,0},{x,1}}.
    {move,{atom,half},{x,0}}.
    {line,[{location,"careful.erl",89}]}.
    {call,2,{f,31}}.
    {move,{x,0},{y,0}}.
    {'%',{var_info,{y,0},[{type,{t_integer,any}}]}}.
    {'try',{y,2},{f,51}}.
    {move,{y,1},{x,1}}.
    {kill,{y,1}}.
    {move,{atom,half},{x,0}}.
    {line,[{location,"careful.erl",92}]}.
    {call,2,{f,31}}.
    {'%',{var_info,{x,0},[{type,{t_integer,any}}]}}.
    {try_end,{y,2}}.
    {jump,{f,52}}.
  {label,51}.
    {try_case,{y,2}}.
    {test,is_eq_exact,{f,53},[{x,0},{atom,throw}]}.
    {test,is_tagged_tuple,{f,53},[{x,1},2,{atom,odd}]}.
    {move,{y,0},{x,0}}.
  {label,52}.
    {test_heap,3,1}.
    {put_tuple2,{x,0},{list,[{y,0},{x,0}]}}.
    {try_end,{y,3}}.
    {deallocate,4}.
    return.
  {label,53}.
    {bif,raise,{f,0},[{x,2},{x,1}],{x,0}}.
  {label,54}.
    {try_case,{y,3}}.
    {test,is_eq_exact,{f,55},[{x,0},{atom,throw}]}.
    {move,{atom,none},{x,0}}.
    {deallocate,4}.
    return.
  {label,55}.
    {bif,raise,{f,0},[{x,2},{x,1}],{x,0}}.


{function, module_info, 0, 57}.
  {label,56}.
    {line,[]}.
    {func_info,{atom,careful},{atom,module_info},0}.
  {label,57}.
    {move,{atom,careful},{x,0}}.
    {line,[]}.
    {call_ext_only,1,{extfunc,erlang,get_module_info,1}}.


{function, module_info, 1, 59}.
  {label,58}.
    {line,[]}.
    {func_info,{atom,careful},{atom,module_info},1}.
  {label,59}.
    {move,{x,0},{x,1}}.
    {move,{atom,careful},{x,0}}.
    {line,[]}.
    {call_ext_only,2,{extfunc,erlang,get_module_info,2}}.
