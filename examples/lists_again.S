{module, lists_again}.  %% version = 0

{exports, [{append,2},
           {member,2},
           {module_info,0},
           {module_info,1},
           {reverse,1},
           {sum,1},
           {take,2},
           {zip,2}]}.

{attributes, []}.

{labels, 28}.


{function, append, 2, 2}.
  {label,1}.
    {line,[{location,"lists_again.erl",5}]}.
    {func_info,{atom,lists_again},{atom,append},2}.
  {label,2}.
    {test,is_nonempty_list,{f,3},[{x,0}]}.
    {allocate,1,2}.
    {get_list,{x,0},{y,0},{x,0}}.
    {line,[{location,"lists_again.erl",6}]}.
    {call,2,{f,2}}.
    {test_heap,2,1}.
    {put_list,{y,0},{x,0},{x,0}}.
    {deallocate,1}.
    return.
  {label,3}.
    {test,is_nil,{f,1},[{x,0}]}.
    {move,{x,1},{x,0}}.
    return.


{function, reverse, 1, 5}.
  {label,4}.
    {line,[{location,"lists_again.erl",10}]}.
    {func_info,{atom,lists_again},{atom,reverse},1}.
  {label,5}.
    {move,nil,{x,1}}.
    {call_only,2,{f,7}}.


{function, reverse, 2, 7}.
  {label,6}.
    {line,[{location,"lists_again.erl",13}]}.
    {func_info,{atom,lists_again},{atom,reverse},2}.
  {label,7}.
    {'%',{var_info,{x,1},[{type,{t_list,any,nil}}]}}.
    {test,is_nonempty_list,{f,8},[{x,0}]}.
    {test_heap,2,2}.
    {get_list,{x,0},{x,2},{x,0}}.
    {put_list,{x,2},{x,1},{x,1}}.
    {call_only,2,{f,7}}.
  {label,8}.
    {test,is_nil,{f,6},[{x,0}]}.
    {move,{x,1},{x,0}}.
    return.


{function, member, 2, 10}.
  {label,9}.
    {line,[{location,"lists_again.erl",18}]}.
    {func_info,{atom,lists_again},{atom,member},2}.
  {label,10}.
    {test,is_nonempty_list,{f,12},[{x,1}]}.
    {get_list,{x,1},{x,2},{x,1}}.
    {test,is_eq_exact,{f,11},[{x,2},{x,0}]}.
    {move,{atom,true},{x,0}}.
    return.
  {label,11}.
    {call_only,2,{f,10}}.
  {label,12}.
    {test,is_nil,{f,9},[{x,1}]}.
    {move,{atom,false},{x,0}}.
    return.


{function, sum, 1, 14}.
  {label,13}.
    {line,[{location,"lists_again.erl",25}]}.
    {func_info,{atom,lists_again},{atom,sum},1}.
  {label,14}.
    {move,{integer,0},{x,1}}.
    {call_only,2,{f,16}}.


{function, sum, 2, 16}.
  {label,15}.
    {line,[{location,"lists_again.erl",28}]}.
    {func_info,{atom,lists_again},{atom,sum},2}.
  {label,16}.
    {'%',{var_info,{x,1},[{type,number}]}}.
    {test,is_nonempty_list,{f,17},[{x,0}]}.
    {get_list,{x,0},{x,2},{x,0}}.
    {line,[{location,"lists_again.erl",29}]}.
    {gc_bif,'+',{f,0},3,[{x,1},{x,2}],{x,1}}.
    {call_only,2,{f,16}}.
  {label,17}.
    {test,is_nil,{f,15},[{x,0}]}.
    {move,{x,1},{x,0}}.
    return.


{function, take, 2, 19}.
  {label,18}.
    {line,[{location,"lists_again.erl",34}]}.
    {func_info,{atom,lists_again},{atom,take},2}.
  {label,19}.
    {test,is_nonempty_list,{f,20},[{x,1}]}.
    {get_list,{x,1},{x,2},{x,1}}.
    {test,is_lt,{f,20},[{integer,0},{x,0}]}.
    {line,[{location,"lists_again.erl",35}]}.
    {gc_bif,'-',{f,0},3,[{x,0},{integer,1}],{x,0}}.
    {allocate,1,3}.
    {move,{x,2},{y,0}}.
    {line,[{location,"lists_again.erl",35}]}.
    {call,2,{f,19}}.
    {'%',{var_info,{x,0},[{type,{t_list,any,nil}}]}}.
    {test_heap,2,1}.
    {put_list,{y,0},{x,0},{x,0}}.
    {deallocate,1}.
    return.
  {label,20}.
    {move,nil,{x,0}}.
    return.


{function, zip, 2, 22}.
  {label,21}.
    {line,[{location,"lists_again.erl",39}]}.
    {func_info,{atom,lists_again},{atom,zip},2}.
  {label,22}.
    {test,is_nonempty_list,{f,23},[{x,0}]}.
    {get_list,{x,0},{x,2},{x,3}}.
    {test,is_nonempty_list,{f,21},[{x,1}]}.
    {allocate,2,4}.
    {move,{x,2},{y,1}}.
    {get_list,{x,1},{y,0},{x,1}}.
    {move,{x,3},{x,0}}.
    {line,[{location,"lists_again.erl",40}]}.
    {call,2,{f,22}}.
    {'%',{var_info,{x,0},[{type,{t_list,{t_tuple,2,true,#{}},nil}}]}}.
    {test_heap,5,1}.
    {put_tuple2,{x,1},{list,[{y,1},{y,0}]}}.
    {put_list,{x,1},{x,0},{x,0}}.
    {deallocate,2}.
    return.
  {label,23}.
    {test,is_nil,{f,21},[{x,0}]}.
    {test,is_nil,{f,21},[{x,1}]}.
    {move,nil,{x,0}}.
    return.


{function, module_info, 0, 25}.
  {label,24}.
    {line,[]}.
    {func_info,{atom,lists_again},{atom,module_info},0}.
  {label,25}.
    {move,{atom,lists_again},{x,0}}.
    {line,[]}.
    {call_ext_only,1,{extfunc,erlang,get_module_info,1}}.


{function, module_info, 1, 27}.
  {label,26}.
    {line,[]}.
    {func_info,{atom,lists_again},{atom,module_info},1}.
  {label,27}.
    {move,{x,0},{x,1}}.
    {move,{atom,lists_again},{x,0}}.
    {line,[]}.
    {call_ext_only,2,{extfunc,erlang,get_module_info,2}}.
